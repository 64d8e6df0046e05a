# Completion of jose(1) and its tools for fish: words, the letters that are left, and the values of letters. It is installed by the name of
# each program, and read once.
functions -q __jose_at; and return

# Whether the words before the cursor are as many as this, and the first is this one where it is given.
function __jose_at
    set -l words (commandline -opc)
    test (count $words) -eq $argv[1]; or return 1
    test (count $argv) -eq 1; or test "$words[2]" = $argv[2]
end

# Whether the words begin with this command, and the letter is not given yet, or is the last word and waits for its value.
function __jose_lacks
    set -l words (commandline -opc)
    test (count $words) -ge 3; and test "$words[2] $words[3]" = "$argv[1] $argv[2]"; or return 1
    set -l given $words[4..-1]
    if test (count $given) -gt 0; and test (count $argv) -eq 4; and string match -qr -- "^-[@FLAGS@]*$argv[3]\$" $given[-1]
        set -e given[-1]
    end
    not string match -qr -- "^-[@FLAGS@]*$argv[3]" $given
end

complete -c jose -f
@NOUNS@
@VERBS@

@LETTERS@

# The words of jose, after the word `command`.
function __jose_of_command
    set -l words (commandline -opc) (commandline -ct)
    complete -C "jose $words[3..-1]"
end

# Whether the first word is this one, and at least so many words are before the cursor.
function __jose_after
    set -l words (commandline -opc)
    test (count $words) -ge $argv[2]; and test "$words[2]" = $argv[1]
end

# Whether no word before the cursor is enc or dec, or the last of them is this one and the letter is not given after it, or waits for its value.
function __jose_password
    set -l words (commandline -opc)
    set -l given
    set -l command none
    for word in $words[2..-1]
        if test $command = none; and contains -- $word enc dec
            set command $word
            set given
        else
            set -a given $word
        end
    end
    test $command = $argv[1]; or return 1
    test (count $argv) -gt 1; or return 0
    if test (count $given) -gt 0; and test (count $argv) -eq 3; and string match -qr -- "^-[@FLAGS@n]*$argv[2]\$" $given[-1]
        set -e given[-1]
    end
    not string match -qr -- "^-[@FLAGS@n]*$argv[2]" $given
end

# Whether the set's name and two words of jose-verify-all are before the cursor, and the letter is not given yet, or waits for its value.
function __jose_verify_all
    set -l given (commandline -opc)[4..-1]
    test (count (commandline -opc)) -ge 3; or return 1
    if test (count $given) -gt 0; and string match -qr -- "^-$argv[1]\$" $given[-1]
        set -e given[-1]
    end
    not string match -qr -- "^-$argv[1]" $given
end

complete -c jose-look -n '__jose_at 1' -a command -d 'say what is wrong with the words of a command'
complete -c jose-look -n '__jose_after command 2' -f -a '(__jose_of_command)'

complete -c jose-password -f
complete -c jose-password -n '__jose_password none' -a 'enc dec'
@PASSWORD@

complete -c jose-set -f
@SET_VERBS@
complete -c jose-set -n '__jose_at 2 join' -s o -r -F -d 'new set'
complete -c jose-set -n '__jose_after join 2' -F
complete -c jose-set -n '__jose_after add 2' -F
complete -c jose-set -n '__jose_at 2 remove' -F
complete -c jose-set -n '__jose_after remove 3' -a '(jose jwk thp -i (commandline -opc)[3] 2>/dev/null)'

complete -c jose-verify-all -f
complete -c jose-verify-all -n '__jose_at 2' -F
@VERIFY_ALL@
