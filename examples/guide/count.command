run --entry Tick --inputs examples/guide/count.txt examples/guide/8.adb
