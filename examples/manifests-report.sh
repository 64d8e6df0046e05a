#!/bin/sh
# Many manifests are verified, and a report has one line for each: the cause of the refusal and the name, with a tab between them.
# `jose: 17 NotOpened` on standard error has the number of the cause. The number is for people; only status 0 says that a file is good.
set -eu
umask 077
# Another program may have the name jose: see EXIT STATUS in jose(1).
[ "$(jose 2>&1)" = 'jose: 1 Usage' ] || { echo 'this needs the jose of Lakhdzeva' >&2; exit 1; }
# The script overwrites nothing: it ends if one of these exists.
for name in manifests deploy.jwk report.txt counts; do
    if [ -e "$name" ] || [ -h "$name" ]; then
        echo "run this in a new folder, without $name" >&2
        exit 1
    fi
done
mkdir manifests
jose jwk gen -i '{"alg":"HS256","kid":"deploy"}' -o deploy.jwk
for name in shop mail 'two words' db web log; do
    echo "image: $name" > "manifests/$name.yaml"
    jose jws sig -c -k deploy.jwk -I "manifests/$name.yaml" -o "manifests/$name.sig" -O /dev/null
done

# cause OBJECT PAYLOAD: `0`, or the number and the name of the refusal, or the status of a command that ended otherwise.
cause() {
    if why=$(jose jws ver -i "$1" -I "$2" -k deploy.jwk 2>&1); then
        echo 0
    else
        status=$?
        case $why in
            'jose: '[0-9]*) echo "${why#jose: }" ;;
            *) echo "status $status" ;;
        esac
    fi
}
# report: all manifests. Its status is 0 if all of them are good.
report() {
    bad=0
    for manifest in manifests/*.yaml; do
        found=$(cause "${manifest%.yaml}.sig" "$manifest")
        [ "$found" = 0 ] || bad=1
        printf '%s\t%s\n' "$found" "$manifest"
    done
    return $bad
}
report > report.txt

# counts: how many there are of each cause. It fails if awk or sort does.
counts() {
    counted=$(awk -F '\t' '{ count[$1]++ } END { for (cause in count) print count[cause], cause }' report.txt)
    printf '%s\n' "$counted" | sort -k 2n
}
counts > counts
[ "$(cat counts)" = '6 0' ]
