# The report of an audit, each key as its fingerprint beside its blob in hexadecimal.
perl -MDigest::SHA=sha256_base64 -pe 's/key ([0-9a-f]+)$/"$& SHA256:" . sha256_base64(pack "H*", $1)/e'
