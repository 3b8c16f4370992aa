run --entry Hold --turns 1000 --inputs examples/runs/hold.txt examples/hold.adb
