# A filter that stays, by the comment of a key: whatever connects to its socket sees that key alone.
folder=$(mktemp -d) || exit
for name in deploy home; do
    ssh-keygen -q -t ed25519 -N '' -C "$name" -f "$folder/$name"
    ssh-add -q "$folder/$name"
done
front/mortarleek filter -a "$folder/deploy.sock" -k deploy
echo "the agent: $(ssh-add -L | cut -d' ' -f3 | paste -sd' ')"
echo "the socket: $(SSH_AUTH_SOCK=$folder/deploy.sock ssh-add -L | cut -d' ' -f3)"
front/mortarleek filter --end -a "$folder/deploy.sock"
[ -e "$folder/deploy.sock" ] || echo 'the socket is gone'
rm -r "$folder"
