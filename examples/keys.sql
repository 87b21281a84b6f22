SELECT o.b AS kind, o.a FROM t AS o ORDER BY kind DESC, o.a
