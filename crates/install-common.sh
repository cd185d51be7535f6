# What both install.sh share. Each sets `words`, by which it is called, and then reads this file.

usage() {
    echo "usage: $words" >&2
    exit 2
}

# absolute FOLDER: its path from the root.
absolute() {
    case $1 in
    /*) echo "$1" ;;
    *) echo "$PWD/$1" ;;
    esac
}

# say_path FOLDER: says whether the folder is on the PATH.
say_path() {
    folder=$(cd "$1" && pwd)
    case :$PATH: in
    *:"$folder":* | *:"$folder"/:*) echo "$folder is on the PATH" ;;
    *) echo "$folder is not on the PATH" ;;
    esac
}
