# The package for JavaScript, and the page.
if has 'data-encoding-*.tgz' && ! lacks 'the package for JavaScript' node nodejs; then
    export npm_config_offline=true npm_config_update_notifier=false npm_config_cache=$room/cache
    if command -v npm >/dev/null; then
        prints JavaScript
    else
        skip 'the commands of README.md, JavaScript: no npm (npm)'
        mkdir -p JavaScript/node_modules
        tar -C JavaScript/node_modules -xf "$files/data-encoding-$version.tgz"
        mv JavaScript/node_modules/package JavaScript/node_modules/data-encoding
    fi
    block "$pages/docs/JAVASCRIPT.md" js >JavaScript/calls.mjs
    is 'the program of docs/JAVASCRIPT.md' "$(block "$pages/docs/JAVASCRIPT.md" text)" \
        "$(node JavaScript/calls.mjs 2>&1)"
    # As a package that is unpacked: its tests import ../src.
    tar -xf "$files/data-encoding-$version.tgz"
    cp -r "$pages/bindings/javascript/tests" package
    holds 'the tests of the package for JavaScript' quietly node --test package/tests/*.test.js
    flag=--experimental-wasm-memory64
    if node $flag -e 0 2>/dev/null; then
        sed 's:"data-encoding:"data-encoding/memory64:' JavaScript/calls.mjs >JavaScript/calls64.mjs
        is 'the same, with 64-bit memory' "$(block "$pages/docs/JAVASCRIPT.md" text)" \
            "$(node $flag JavaScript/calls64.mjs 2>&1)"
    fi
fi
if has basecode.html; then
    program=$room/basecode-$version-x86_64-linux/bin/basecode
    if [ ! -x "$program" ]; then
        skip 'the page: no program to compare it with'
    else
        if ! lacks 'the page in Chromium' chromium chromium &&
            ! lacks 'the page in Chromium' chromedriver chromium-driver; then
            holds 'the page in Chromium' quietly env PYTHONDONTWRITEBYTECODE=1 python3 \
                "$pages/tests/web/page.py" "$files/basecode.html" "$program"
        fi
        if ! lacks 'the page in Firefox' firefox-esr firefox-esr; then
            holds 'the page in Firefox' quietly env PYTHONDONTWRITEBYTECODE=1 python3 \
                "$pages/tests/web/firefox.py" "$files/basecode.html" "$program"
        fi
    fi
fi
