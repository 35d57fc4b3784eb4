#!/usr/bin/env bash
# The standard's own example, RFC 8439 section 2.8.2, sealed and opened by the proved program.
set -euo pipefail
cd "$(dirname "${BASH_SOURCE[0]}")/.."
rehearse=$(bash tests/program.sh rehearse)

text="Ladies and Gentlemen of the class of '99: If I could offer you only one tip for the future, sunscreen would be it."
key=808182838485868788898a8b8c8d8e8f909192939495969798999a9b9c9d9e9f
nonce=070000004041424344454647
marked=50515253c0c1c2c3c4c5c6c7
# As the standard prints them.
sealed=d31a8d34648e60db7b86afbc53ef7ec2a4aded51296e08fea9e2b5a736ee62d63dbea45e8ca9671282fafb69da92728b1a71de0a9e060b2905d6a5b67ecd3b3692ddbd7f2d778b8c9803aee328091b58fab324e4fad675945585808b4831d7bc3ff4def08e4b7a9de576d26586cec64b6116
mark=1ae10b594f09e26a7e902ecbd0600691

hex() { od -An -v -tx1 | tr -d ' \n'; }
# The bytes of a hex string, four hex digits of it as one octal escape at a time.
text_of() { printf '%b' "$(sed 's/../\\x&/g')"; }

answer() { printf '%s\n' "$1" | "$rehearse"; }

echo "Sealing by ChaCha20 and Poly1305: the example of RFC 8439, section 2.8.2"
echo
echo "  the text      $text"
echo "  the key       $key"
got=$(answer "seal $key $nonce $marked $(printf %s "$text" | hex)")
echo "  sealed        ${got:0:64}..."
echo "  with its mark ${got: -32}"
if [ "$got" = "$sealed$mark" ]; then
    echo "                just what the standard prints"
else
    echo "                NOT what the standard prints"
    exit 1
fi
back=$(answer "open $key $nonce $marked $got" | text_of)
echo "  opened again  $back"
[ "$back" = "$text" ]
bad=${got%?}0
echo "  with the last bit of the mark changed: $(answer "open $key $nonce $marked $bad")"
echo "  with one bit of the key changed:       $(answer "open 81${key:2} $nonce $marked $got")"
[ "$(answer "open $key $nonce $marked $bad")" = "refused 3: does not open" ]
