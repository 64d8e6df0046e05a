# Completion of jose(1) and its tools for fish: words, the letters that are left, and the values of letters. It is installed by the name of
# each program, and read once.
functions -q __jose_at; and return

# Whether the words before the cursor are as many as this, and the first is this one where it is given.
function __jose_at
    set -l words (commandline -opc)
    test (count $words) -eq $argv[1]; or return 1
    test (count $argv) -eq 1; or test "$words[2]" = $argv[2]
end

# Whether the words begin with this command, and the letter is not given yet, or is the last word and waits for its value.
function __jose_lacks
    set -l words (commandline -opc)
    test (count $words) -ge 3; and test "$words[2] $words[3]" = "$argv[1] $argv[2]"; or return 1
    set -l given $words[4..-1]
    if test (count $given) -gt 0; and test (count $argv) -eq 4; and string match -qr -- "^-[ac]*$argv[3]\$" $given[-1]
        set -e given[-1]
    end
    not string match -qr -- "^-[ac]*$argv[3]" $given
end

complete -c jose -f
complete -c jose -n '__jose_at 1' -a b64 -d 'base64url texts'
complete -c jose -n '__jose_at 1' -a jwe -d 'encrypted objects'
complete -c jose -n '__jose_at 1' -a jwk -d keys
complete -c jose -n '__jose_at 1' -a jws -d 'signed objects'
complete -c jose -n '__jose_at 2 b64' -a enc -d 'bytes to text'
complete -c jose -n '__jose_at 2 b64' -a dec -d 'text to bytes'
complete -c jose -n '__jose_at 2 jwe' -a enc -d encrypt
complete -c jose -n '__jose_at 2 jwe' -a dec -d decrypt
complete -c jose -n '__jose_at 2 jwe' -a fmt -d 'write in another form'
complete -c jose -n '__jose_at 2 jwk' -a gen -d 'make a key'
complete -c jose -n '__jose_at 2 jwk' -a thp -d 'write thumbprints'
complete -c jose -n '__jose_at 2 jws' -a sig -d sign
complete -c jose -n '__jose_at 2 jws' -a ver -d verify
complete -c jose -n '__jose_at 2 jws' -a fmt -d 'write in another form'

complete -c jose -n '__jose_lacks jwk gen i value' -s i -r -F -d template
complete -c jose -n '__jose_lacks jwk gen o value' -s o -r -F -d key
complete -c jose -n '__jose_lacks jwk gen R value' -s R -r -F -d 'random bytes'
complete -c jose -n '__jose_lacks jwk thp i value' -s i -r -F -d 'key or set'
complete -c jose -n '__jose_lacks jwk thp a value' -s a -x -a 'S224 S256 S384 S512' -d hash
complete -c jose -n '__jose_lacks jwk thp o value' -s o -r -F -d thumbprints
complete -c jose -n '__jose_lacks b64 enc I value' -s I -r -F -d bytes
complete -c jose -n '__jose_lacks b64 enc o value' -s o -r -F -d text
complete -c jose -n '__jose_lacks b64 dec i value' -s i -r -F -d text
complete -c jose -n '__jose_lacks b64 dec O value' -s O -r -F -d bytes
complete -c jose -n '__jose_lacks jws sig s value' -s s -r -F -d template
complete -c jose -n '__jose_lacks jws sig I value' -s I -r -F -d payload
complete -c jose -n '__jose_lacks jws sig k value' -s k -r -F -d 'key or set'
complete -c jose -n '__jose_lacks jws sig o value' -s o -r -F -d object
complete -c jose -n '__jose_lacks jws sig O value' -s O -r -F -d 'payload to detach'
complete -c jose -n '__jose_lacks jws sig c' -s c -d 'compact form'
complete -c jose -n '__jose_lacks jws ver i value' -s i -r -F -d object
complete -c jose -n '__jose_lacks jws ver I value' -s I -r -F -d 'detached payload'
complete -c jose -n '__jose_lacks jws ver k value' -s k -r -F -d 'key or set'
complete -c jose -n '__jose_lacks jws ver a' -s a -d 'each good key must verify'
complete -c jose -n '__jose_lacks jws ver O value' -s O -r -F -d payload
complete -c jose -n '__jose_lacks jws fmt i value' -s i -r -F -d object
complete -c jose -n '__jose_lacks jws fmt I value' -s I -r -F -d 'detached payload'
complete -c jose -n '__jose_lacks jws fmt o value' -s o -r -F -d text
complete -c jose -n '__jose_lacks jws fmt O value' -s O -r -F -d 'payload to detach'
complete -c jose -n '__jose_lacks jws fmt c' -s c -d 'compact form'
complete -c jose -n '__jose_lacks jwe enc i value' -s i -r -F -d template
complete -c jose -n '__jose_lacks jwe enc I value' -s I -r -F -d plaintext
complete -c jose -n '__jose_lacks jwe enc k value' -s k -r -F -d 'key or set'
complete -c jose -n '__jose_lacks jwe enc o value' -s o -r -F -d object
complete -c jose -n '__jose_lacks jwe enc O value' -s O -r -F -d 'ciphertext to detach'
complete -c jose -n '__jose_lacks jwe enc c' -s c -d 'compact form'
complete -c jose -n '__jose_lacks jwe enc R value' -s R -r -F -d 'random bytes'
complete -c jose -n '__jose_lacks jwe dec i value' -s i -r -F -d object
complete -c jose -n '__jose_lacks jwe dec I value' -s I -r -F -d 'detached ciphertext'
complete -c jose -n '__jose_lacks jwe dec k value' -s k -r -F -d 'key or set'
complete -c jose -n '__jose_lacks jwe dec O value' -s O -r -F -d plaintext
complete -c jose -n '__jose_lacks jwe fmt i value' -s i -r -F -d object
complete -c jose -n '__jose_lacks jwe fmt I value' -s I -r -F -d 'detached ciphertext'
complete -c jose -n '__jose_lacks jwe fmt o value' -s o -r -F -d text
complete -c jose -n '__jose_lacks jwe fmt O value' -s O -r -F -d 'ciphertext to detach'
complete -c jose -n '__jose_lacks jwe fmt c' -s c -d 'compact form'

# The words of jose, after the word `command`.
function __jose_of_command
    set -l words (commandline -opc) (commandline -ct)
    complete -C "jose $words[3..-1]"
end

# Whether the first word is this one, and at least so many words are before the cursor.
function __jose_after
    set -l words (commandline -opc)
    test (count $words) -ge $argv[2]; and test "$words[2]" = $argv[1]
end

# Whether no word before the cursor is enc or dec, or the last of them is this one and the letter is not given after it, or waits for its value.
function __jose_password
    set -l words (commandline -opc)
    set -l given
    set -l command none
    for word in $words[2..-1]
        if test $command = none; and contains -- $word enc dec
            set command $word
            set given
        else
            set -a given $word
        end
    end
    test $command = $argv[1]; or return 1
    test (count $argv) -gt 1; or return 0
    if test (count $given) -gt 0; and test (count $argv) -eq 3; and string match -qr -- "^-[acn]*$argv[2]\$" $given[-1]
        set -e given[-1]
    end
    not string match -qr -- "^-[acn]*$argv[2]" $given
end

# Whether the set's name and two words of jose-verify-all are before the cursor, and the letter is not given yet, or waits for its value.
function __jose_verify_all
    set -l given (commandline -opc)[4..-1]
    test (count (commandline -opc)) -ge 3; or return 1
    if test (count $given) -gt 0; and string match -qr -- "^-$argv[1]\$" $given[-1]
        set -e given[-1]
    end
    not string match -qr -- "^-$argv[1]" $given
end

complete -c jose-look -n '__jose_at 1' -a command -d 'say what is wrong with the words of a command'
complete -c jose-look -n '__jose_after command 2' -f -a '(__jose_of_command)'

complete -c jose-password -f
complete -c jose-password -n '__jose_password none' -a 'enc dec'
complete -c jose-password -n '__jose_password none n' -s n -d 'ask twice'
complete -c jose-password -n '__jose_password none a value' -s a -x -a 'PBES2-HS256+A128KW PBES2-HS384+A192KW PBES2-HS512+A256KW' -d algorithm
complete -c jose-password -n '__jose_password none p value' -s p -x -d iterations
complete -c jose-password -n '__jose_password none f value' -s f -r -F -d 'file of the password'
complete -c jose-password -n '__jose_password enc I value' -s I -r -F -d plaintext
complete -c jose-password -n '__jose_password enc o value' -s o -r -F -d object
complete -c jose-password -n '__jose_password enc O value' -s O -r -F -d 'ciphertext to detach'
complete -c jose-password -n '__jose_password enc c' -s c -d 'compact form'
complete -c jose-password -n '__jose_password enc R value' -s R -r -F -d 'random bytes'
complete -c jose-password -n '__jose_password dec i value' -s i -r -F -d object
complete -c jose-password -n '__jose_password dec I value' -s I -r -F -d 'detached ciphertext'
complete -c jose-password -n '__jose_password dec O value' -s O -r -F -d plaintext

complete -c jose-set -f
complete -c jose-set -n '__jose_at 1' -a add -d 'add keys to a set'
complete -c jose-set -n '__jose_at 1' -a join -d 'make a set of keys'
complete -c jose-set -n '__jose_at 1' -a remove -d 'remove keys from a set'
complete -c jose-set -n '__jose_at 2 join' -s o -r -F -d 'new set'
complete -c jose-set -n '__jose_after join 2' -F
complete -c jose-set -n '__jose_after add 2' -F
complete -c jose-set -n '__jose_at 2 remove' -F
complete -c jose-set -n '__jose_after remove 3' -a '(jose jwk thp -i (commandline -opc)[3] 2>/dev/null)'

complete -c jose-verify-all -f
complete -c jose-verify-all -n '__jose_at 2' -F
complete -c jose-verify-all -n '__jose_verify_all i' -s i -r -F -d object
complete -c jose-verify-all -n '__jose_verify_all I' -s I -r -F -d 'detached payload'
complete -c jose-verify-all -n '__jose_verify_all O' -s O -r -F -d payload
