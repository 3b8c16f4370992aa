run --entry Share --inputs examples/findings/i4.txt examples/runs/share.adb
