-- The rows after 28 messages of the story `held-block`: the second number is sent again, and one carrier has acknowledged
-- that.
BEGIN;
INSERT INTO block VALUES (2025337, 'BBBB', NULL);
INSERT INTO version VALUES (1, 2025337001, 'BBBB', 'BBBB', 0, 2025330000, NULL, NULL, NULL, 'active', 'none', 5, 1, NULL, 0, 1, NULL, NULL, 2025337001, -2);
INSERT INTO version VALUES (2, 2025337002, 'BBBB', 'BBBB', 0, 2025330000, NULL, NULL, NULL, 'sending', 'create', 20, 2, NULL, 0, 1, NULL, 35, -3, 2025337002);
INSERT INTO broadcast VALUES (2, 2, 20, 2025337002, 'create', 2025330000, NULL, 1, 1);
INSERT INTO wait VALUES ('BBBB', 20, 2, 2, 2025337002);
INSERT INTO wait VALUES ('CCCC', 20, 2, 2, 2025337002);
INSERT INTO clock VALUES (0, 21, 3, 60, 60, 30, 120, 1000, 60, 60, 500, 15);
COMMIT;
