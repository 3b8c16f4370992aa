run --entry Share --inputs examples/findings/i3.txt examples/runs/share.adb
