run --entry Share --inputs examples/runs/share.txt examples/runs/share.adb
