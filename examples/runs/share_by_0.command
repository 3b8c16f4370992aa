run --entry Share --inputs examples/runs/share_by_0.txt examples/runs/share.adb
