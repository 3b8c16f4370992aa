run --entry Tick --inputs examples/guide/last.txt examples/guide/6.adb
