#!/bin/bash
# Makes the calls of a list as an indexed job of Kubernetes: kubernetes.sh LIST PARTS IMAGE CLAIM
#
# IMAGE has zigrunk and the toolkit. CLAIM is a persistent volume claim that all pods may write; this machine has its volume at SHARE, /share unless set,
# and so have pods. LIST, below it, is cut into PARTS. Each is a pod: its node has to pass `zigrunk check-node`, which this machine writes, so this
# runs in a pod of IMAGE too, or on a machine like it. What is missing behind a round is made again, without nodes on which a pod failed: until nothing
# is, or each call that is has failed on two nodes, or for three rounds. The status is that of the first call in the list that failed.
set -u
[ $# = 4 ] || { echo 'usage: kubernetes.sh LIST PARTS IMAGE CLAIM' >&2 && exit 2; }
list=$(realpath "$1") parts=$2 image=$3 claim=$4 share=${SHARE:-/share}
folder=$(dirname "$list")/.zigrunk-batch
mkdir -p "$folder" && rm -f "$folder"/*.ended "$folder"/*.said && zigrunk check-node --write "$folder/node" || exit 1
job='' bad=''
trap 'kubectl delete job "$job"; exit 130' HUP INT TERM

# shellcheck disable=SC2086 # several parts and nodes
# manifest: the job that makes the parts that are missing, a pod for each.
manifest() {
    cat << END
apiVersion: batch/v1
kind: Job
metadata: {name: $job}
spec:
  completions: $(wc -w <<< "$missing")
  parallelism: $(wc -w <<< "$missing")
  completionMode: Indexed
  backoffLimit: $(($(wc -w <<< "$missing") * 2))
  template:
    spec:
      restartPolicy: Never
      affinity: {nodeAffinity: {requiredDuringSchedulingIgnoredDuringExecution: {nodeSelectorTerms: [{matchExpressions: [
        {key: kubernetes.io/hostname, operator: NotIn, values: [none$(printf ', "%s"' $bad)]}]}]}}}
      containers:
      - name: zigrunk
        image: $image
        env: [{name: ZIGRUNK_NODE, valueFrom: {fieldRef: {fieldPath: spec.nodeName}}}]
        command: [bash, -c, 'shift "\$JOB_COMPLETION_INDEX" && zigrunk check-node "\$0/node" && cd "$PWD" && exec zigrunk batch --part "\$1/$parts" "$list" > "\$0/\$1.said" 2>&1',
          "$folder"$(printf ', "%s"' $missing)]
        volumeMounts: [{name: share, mountPath: $share}]
      volumes: [{name: share, persistentVolumeClaim: {claimName: $claim}}]
END
}

for round in 1 2 3; do
    missing=$(for part in $(seq "$parts"); do zigrunk batch --missing --part "$part/$parts" "$list" > /dev/null || echo "$part"; done)
    [ -n "$missing" ] || break
    job=zigrunk-$$-$round
    manifest | kubectl create -f - || exit 1
    until kubectl get job "$job" -o 'jsonpath={.status.conditions[*].type}' | grep -qE 'Complete|Failed'; do sleep 2; done
    bad+=" $(kubectl get pods -l "job-name=$job" -o 'jsonpath={.items[?(@.status.phase=="Failed")].spec.nodeName}')"
    zigrunk batch --missing "$list" > "$folder/missing" && break
    grep -qvE ': exit status [0-9]+ on [^:]* and ' "$folder/missing" || break
    echo "kubernetes.sh: $(wc -l < "$folder/missing") calls are missing behind round $round" >&2
done
cat "$folder"/*.said 2> /dev/null
zigrunk batch --missing "$list" >&2
