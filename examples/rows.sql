-- The rows of an office as text: `plan check-office` prints its SHA-256 digest.
--
--     sqlite3 office.db < examples/rows.sql | sha256sum
SELECT 'office ' || office FROM meta;
SELECT 'published ' || code || ' ' || kind || ' ' || capacity FROM published ORDER BY code;
SELECT 'desk ' || desk || ' ' || digest || ' ' || next FROM desks ORDER BY desk;
SELECT 'plan ' || desk || ' ' || n || ' ' || kind || ' ' || hex(name) || ' ' || hex(body)
  || ' ' || start || ' ' || days FROM plans ORDER BY desk, n;
SELECT 'bind ' || desk || ' ' || n || ' ' || place || ' ' || code
  FROM binds ORDER BY desk, n, place;
SELECT 'lag ' || desk || ' ' || n || ' ' || src || ' ' || dst || ' ' || lag
  FROM lags ORDER BY desk, n, src, dst;
