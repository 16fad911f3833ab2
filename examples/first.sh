# A key for git alone, in an agent that records: a commit is signed, a login is refused, and the log has both. Prints each
# command and what comes of it, but for times, fingerprints and the user's name, which are other ones each time.
top=$PWD folder=$(mktemp -d) || exit
export HOME="$folder" TZ=UTC
cd "$folder" || exit
mkdir .ssh
ssh-keygen -q -t ed25519 -N '' -C me@laptop -f key
ssh-keygen -q -t ed25519 -N '' -f host
cp key.pub authorized
# sshd itself is the connection, so nothing listens.
[ "$(id -u)" != 0 ] || mkdir -p /run/sshd
printf '%s\n' "HostKey $folder/host" "AuthorizedKeysFile $folder/authorized" 'UsePAM no' 'StrictModes no' \
    'PermitRootLogin yes' 'PasswordAuthentication no' 'KbdInteractiveAuthentication no' 'LogLevel QUIET' > sshd_config
printf '%s\n' 'Host forge' "  ProxyCommand /usr/sbin/sshd -i -f $folder/sshd_config" '  BatchMode yes' \
    '  RequestTTY no' '  IdentitiesOnly yes' "  IdentityFile $folder/key.pub" "  UserKnownHostsFile $folder/.ssh/known_hosts" > config
echo "forge $(cut -d ' ' -f 1,2 host.pub)" > .ssh/known_hosts
git init -q -b main work
cd work || exit
git config gpg.format ssh
git config user.name me
git config user.email me@example.org
git config user.signingkey "$folder/key.pub"
mv ../key .
: > change
git add change
mortarleek() { "$top/front/mortarleek" "$@"; }
ssh() { command ssh -F ../config "$@"; }
say() {
    printf '$ %s\n' "$1"
    eval "$1" 2>&1
}
{
    say 'eval "$(mortarleek agent --record today)" > /dev/null'
    say 'mortarleek add --for git key && rm key'
    say "git commit -q -S -m 'a change' && echo committed"
    say 'ssh forge'
    say 'mortarleek log today'
    kill "$SSH_AGENT_PID"
} | tr -d "\r" | sed "s,SHA256:[A-Za-z0-9+/]*,SHA256:..,g; s,^[0-9-]* [0-9:]*  ,2026-12-01 14:05:40  ,; s,$folder/,,
    s,^$(id -un)@forge,me@forge,; s,login as \"$(id -un)\",login as \"me\","
rm -r "$folder"
