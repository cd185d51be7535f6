# Completes the words of basecode(1) in fish.

# The words before that at the cursor, without redirections.
function __basecode_words
    commandline -pc | string replace -r '\S*$' '' |
        string replace -ra '[0-9&]*[<>]+[&?]?\s*\S+' '' | string split -n ' '
end

function __basecode_takes_verb
    test (count (__basecode_words)) -eq 1
end

function __basecode_takes_name
    set -l words (__basecode_words)
    test (count $words) -eq 2
    and contains -- $words[2] encode decode canonical
end

function __basecode_names
    set -l words (commandline -opc)
    $words[1] list 2>/dev/null
end

complete -c basecode -f
complete -c basecode -n __basecode_takes_verb -a list -d 'Write the names of the encodings'
complete -c basecode -n __basecode_takes_verb -a encode -d 'Write the text of standard input'
complete -c basecode -n __basecode_takes_verb -a decode -d 'Write the data that standard input means'
complete -c basecode -n __basecode_takes_verb -a canonical -d 'Write whether data has one text only'
complete -c basecode -n __basecode_takes_name -a '(__basecode_names)'
