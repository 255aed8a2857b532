if (a1) { b = "c" + 0x10; } // seven
