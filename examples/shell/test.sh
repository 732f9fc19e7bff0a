#!/usr/bin/env bash
# A test in bash, with the AWS command line: a server at a free port, ended with the test. SECRETSD names the program.
set -euo pipefail
export AWS_ACCESS_KEY_ID=any AWS_SECRET_ACCESS_KEY=any AWS_DEFAULT_REGION=us-east-1
folder=$(mktemp -d)
"${SECRETSD:-secretsd}" --mode serve --listen 127.0.0.1:0 2> "$folder/said" &
server=$!
trap 'kill $server; rm -r "$folder"' EXIT
until grep --quiet '^secretsd: listening on ' "$folder/said"; do sleep 0.05; done
address=http://$(sed --quiet 's/^secretsd: listening on \([^,]*\),.*/\1/p' "$folder/said")

ask() {
    aws secretsmanager "$@" --endpoint-url "$address" --output text
}
ask create-secret --name db/app --secret-string s3cret > "$folder/made"
[ "$(ask get-secret-value --secret-id db/app --query SecretString)" = s3cret ]
echo "shell: the value is read as it was written"
