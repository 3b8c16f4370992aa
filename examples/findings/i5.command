run --entry Divide --inputs examples/runs/share.txt examples/runs/share.adb
