-- Changes of a store that break one rule each: one a line.

-- Rows by themselves.
UPDATE meta SET office = 'abc';
UPDATE meta SET office = upper(office);
DELETE FROM meta;
INSERT INTO meta (id, version, office) SELECT 2, 2, office FROM meta;
UPDATE meta SET id = 2;
UPDATE published SET code = '-spare' WHERE code = 'spare';
UPDATE published SET code = '' WHERE code = 'spare';
UPDATE published SET code = 'Spare' WHERE code = 'spare';
UPDATE published SET code = 'abcdefghijabcdefghijabcdefghijabc' WHERE code = 'spare';
UPDATE published SET kind = 'boat' WHERE code = 'spare';
UPDATE published SET capacity = 10001 WHERE code = 'spare';
UPDATE published SET capacity = -1 WHERE code = 'spare';
UPDATE desks SET desk = 'So' WHERE desk = 'south';
UPDATE desks SET digest = '' WHERE desk = 'south';
UPDATE desks SET digest = substr(digest, 2) WHERE desk = 'south';
UPDATE desks SET digest = 'g' || substr(digest, 2) WHERE desk = 'south';
UPDATE desks SET next = 0 WHERE desk = 'south';
UPDATE desks SET next = 1000002 WHERE desk = 'south';
UPDATE plans SET n = 0 WHERE n = 3;
UPDATE plans SET kind = 'task' WHERE n = 3;
UPDATE plans SET name = 'one' WHERE n = 3;
UPDATE plans SET name = 'two' WHERE n = 2;
UPDATE plans SET name = CAST(x'ff' AS TEXT) WHERE n = 2;
UPDATE plans SET kind = 'shop' WHERE n = 3;

-- Files and calendars of plans.
UPDATE plans SET body = x'' WHERE n = 3;
UPDATE plans SET body = x'00' WHERE n = 2;
UPDATE plans SET body = x'70726f6a656374733a20310a6a6f62733a20320a2d2072656e657761626c653a20310a' WHERE n = 3;
UPDATE plans SET start = '2023-02-29', days = '1111100' WHERE n = 3;
UPDATE plans SET days = '1111100' WHERE n = 3;
UPDATE plans SET start = '2024-03-01' WHERE n = 3;
UPDATE plans SET days = '0000000' WHERE n = 1;
UPDATE plans SET days = '111110' WHERE n = 1;

-- Rows across tables; the last makes more than a hundred plans of one desk.
UPDATE plans SET desk = 'east' WHERE n = 3;
UPDATE desks SET next = 3 WHERE desk = 'north';
UPDATE binds SET n = 4 WHERE n = 1;
UPDATE binds SET desk = 'south' WHERE n = 1;
UPDATE binds SET place = 0 WHERE n = 1;
UPDATE binds SET place = 2 WHERE n = 1;
UPDATE binds SET place = 2 WHERE n = 2;
UPDATE binds SET code = 'drill' WHERE n = 2;
UPDATE binds SET code = 'mill' WHERE n = 1;
UPDATE binds SET code = 'crew-a' WHERE n = 2;
UPDATE lags SET src = 2, dst = 1;
UPDATE lags SET lag = 0;
UPDATE lags SET lag = 10001;
UPDATE lags SET n = 2;
UPDATE lags SET n = 9;
UPDATE desks SET next = 1000 WHERE desk = 'north'; INSERT INTO plans (desk, n, kind, name, body, start, days) SELECT desk, n + 10, kind, name, body, start, days FROM plans; INSERT INTO plans (desk, n, kind, name, body, start, days) SELECT desk, n + 20, kind, name, body, start, days FROM plans; INSERT INTO plans (desk, n, kind, name, body, start, days) SELECT desk, n + 40, kind, name, body, start, days FROM plans; INSERT INTO plans (desk, n, kind, name, body, start, days) SELECT desk, n + 80, kind, name, body, start, days FROM plans; INSERT INTO plans (desk, n, kind, name, body, start, days) SELECT desk, n + 160, kind, name, body, start, days FROM plans; INSERT INTO plans (desk, n, kind, name, body, start, days) SELECT desk, n + 320, kind, name, body, start, days FROM plans WHERE n < 50;

-- Other tables than those of a store.
CREATE TABLE notes (a TEXT);
CREATE INDEX by_kind ON plans (kind);
CREATE VIEW crews AS SELECT code FROM published;
DROP TABLE lags;
DROP TABLE published; CREATE TABLE published (code TEXT NOT NULL, kind TEXT NOT NULL, capacity INTEGER, PRIMARY KEY (code)) STRICT;
