# A key for git and one for logins, in an agent of ours: each does what it is for, and nothing else.
folder=$(mktemp -d) || exit
export HOME="$folder"
cd "$folder" || exit
for name in signing entry host; do ssh-keygen -q -t ed25519 -N '' -C "$name" -f "$name"; done
cat signing.pub entry.pub > authorized
# sshd itself is the connection, so nothing listens.
[ "$(id -u)" != 0 ] || mkdir -p /run/sshd
printf '%s\n' "HostKey $folder/host" "AuthorizedKeysFile $folder/authorized" 'UsePAM no' 'StrictModes no' \
    'PermitRootLogin yes' 'PasswordAuthentication no' 'LogLevel QUIET' > sshd_config
echo "nearby $(cat host.pub)" > known_hosts
logs_in() {
    ssh -o ProxyCommand="/usr/sbin/sshd -i -f $folder/sshd_config" -o BatchMode=yes -o IdentitiesOnly=yes -i "$1.pub" \
        -o UserKnownHostsFile="$folder/known_hosts" -o LogLevel=QUIET -F none nearby 'echo "logged in"'
}
commits() {
    git -C work -c gpg.format=ssh -c user.name=me -c user.email=me@example.org -c user.signingkey="$folder/$1.pub" \
        commit -q -S --allow-empty -m signed 2> "$1.log" && echo "signed a commit"
}
git init -q work
"$OLDPWD/front/mortarleek" add --for git signing
"$OLDPWD/front/mortarleek" add --for login entry
# The agent alone has the keys now.
rm signing entry
for name in signing entry; do
    echo "$name:"
    commits "$name" || echo "signed no commit"
    logs_in "$name" || echo "didn't log in"
done
rm -r "$folder"
