SELECT b.x FROM b, s WHERE b.x = s.y
