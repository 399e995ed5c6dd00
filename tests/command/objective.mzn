var 0..5: x;
solve maximize x;
