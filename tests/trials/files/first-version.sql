-- The tables as the first version made them, which had no lags. The office has the key `password`.
CREATE TABLE meta (id INTEGER NOT NULL PRIMARY KEY, version INTEGER NOT NULL, office TEXT NOT NULL) STRICT;
CREATE TABLE published (code TEXT NOT NULL, kind TEXT NOT NULL, capacity INTEGER NOT NULL, PRIMARY KEY (code)) STRICT;
CREATE TABLE desks (desk TEXT NOT NULL, digest TEXT NOT NULL, next INTEGER NOT NULL, PRIMARY KEY (desk)) STRICT;
CREATE TABLE plans (desk TEXT NOT NULL, n INTEGER NOT NULL, kind TEXT NOT NULL, name TEXT NOT NULL, body BLOB NOT NULL, start TEXT NOT NULL, days TEXT NOT NULL, PRIMARY KEY (desk, n)) STRICT;
CREATE TABLE binds (desk TEXT NOT NULL, n INTEGER NOT NULL, place INTEGER NOT NULL, code TEXT NOT NULL, PRIMARY KEY (desk, n, place)) STRICT;
INSERT INTO meta (id, version, office) VALUES (1, 1, '5e884898da28047151d0e56f8dc6292773603d0d6aabbdd62a11ef721d1542d8');
