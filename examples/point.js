class Point { x = 0; y = 0; label; }
