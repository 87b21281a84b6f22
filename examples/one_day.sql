SELECT amount FROM sales WHERE day = 100
