run --entry Share --inputs examples/findings/i2.txt examples/runs/share.adb
