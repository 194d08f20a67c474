#!/bin/sh
# From tasks to response times on 1, 2 and 4 cores, and pictures. All of it is made in out/, and compared with what stands here.
# usage: run.sh [SAG [SAG-PLOT]]
set -eu
cd "$(dirname "$0")"
sag=${1:-sag}
plot=${2:-sag-plot}
mkdir -p out

"$sag" unroll tasks.csv 1000000 rate > out/jobs.csv
cmp out/jobs.csv jobs.csv

for cores in 1 2 4; do
    "$sag" analyse jobs.csv --cores $cores --budget 300000 > out/certificate_$cores.txt
    "$sag" check jobs.csv out/certificate_$cores.txt --cores $cores > out/answer_$cores.txt
    "$sag" report jobs.csv out/certificate_$cores.txt --cores $cores > out/report_$cores.csv
    "$sag" report jobs.csv out/certificate_$cores.txt --cores $cores --tasks > out/tasks_on_$cores.csv
    cmp out/tasks_on_$cores.csv tasks_on_$cores.csv
    echo "cores: $cores, jobs that may miss their deadlines: $(grep -c '^job .* miss$' out/answer_$cores.txt || true)"
done

# each job is released as early as it may be, and runs as long as it may
awk -F, 'NR == 1 { print "Task ID,Job ID,Release,Cost" } NR > 1 { print $1 "," $2 "," $3 "," $6 }' jobs.csv > out/scenario.csv
"$sag" replay jobs.csv out/scenario.csv > out/schedule_1.csv

"$plot" schedule jobs.csv out/schedule_1.csv --scenario out/scenario.csv --from 110000 --to 112500 -o out/schedule.png
"$plot" bounds jobs.csv out/report_2.csv --from 100000 --to 103999 -o out/bounds.png
"$plot" levels out/certificate_4.txt -o out/growth.png
"$plot" page jobs.csv out/certificate_2.txt --title "Automotive tasks on two cores" -o out/page.html
