# Turns on the jose of the Debian package, with its pages and completions, in fish: source /usr/lib/lakhdzeva/env.fish
set -gx PATH /usr/lib/lakhdzeva/bin $PATH
set -gx MANPATH /usr/lib/lakhdzeva/share/man $MANPATH ''
set -p fish_complete_path /usr/lib/lakhdzeva/share/fish/vendor_completions.d
