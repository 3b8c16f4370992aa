run --entry Grow --inputs examples/runs/grow.txt examples/runs/grow.adb
