conditions examples/guide/6.adb
