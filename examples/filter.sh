# Twenty keys in an agent, of which a command behind the filter gets two.
folder=$(mktemp -d) || exit
for number in $(seq 20); do
    ssh-keygen -q -t ed25519 -N '' -C "key $number" -f "$folder/$number"
    ssh-add -q "$folder/$number"
done
echo "the agent: $(ssh-add -L | wc -l) keys"
front/mortarleek filter -k "$folder/7.pub" -k "$folder/19.pub" sh -c '
    echo "behind the filter:"
    ssh-add -L | cut -d" " -f3-
    ssh-add -T "$0/7.pub" && echo "key 7 signs"
    ssh-add -T "$0/8.pub" 2> /dev/null || echo "key 8 is refused"
    ssh-add -D' "$folder"
echo "the agent: $(ssh-add -L | wc -l) keys"
rm -r "$folder"
