run --entry Share --inputs examples/findings/i1.txt examples/runs/share.adb
