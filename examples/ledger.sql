-- A small ledger: what ends a statement, and what does not.
\set ON_ERROR_STOP on
CREATE TABLE entry (id int, note text, amount numeric(10, 2) DEFAULT 0.50);
INSERT INTO entry VALUES (1, 'rent; paid', -650), (2, E'it\'s late;', 1e3);
/* a comment; /* with another; inside */ */
CREATE FUNCTION sum_up() RETURNS numeric AS $body$
BEGIN
  RETURN (SELECT sum(amount) FROM entry); -- counts as part of the body
END;
$body$ LANGUAGE plpgsql;
SELECT 1\; SELECT "odd;name" FROM entry WHERE id = $1;
SELECT sum_up(), (0x1F) \g (format=aligned) out.txt
SELECT U&'d\0061ta', U&"n\0061me", b'101', X'1f', N'n' AS "last" \gx
SELECT now()
