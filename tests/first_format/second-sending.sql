-- The rows after 16 messages of the story `held-block`: a block is donated with two numbers in use. All have acknowledged
-- the first, nobody the second, which is being sent until 15.
BEGIN;
INSERT INTO block VALUES (2025337, 'BBBB', NULL);
INSERT INTO version VALUES (1, 2025337001, 'BBBB', 'BBBB', 0, 2025330000, NULL, NULL, NULL, 'active', 'none', 5, 1, NULL, 0, 1, NULL, NULL, 2025337001, -2);
INSERT INTO version VALUES (2, 2025337002, 'BBBB', 'BBBB', 0, 2025330000, NULL, NULL, NULL, 'sending', 'create', 0, 1, NULL, 0, 1, NULL, 15, -3, 2025337002);
INSERT INTO broadcast VALUES (2, 1, 0, 2025337002, 'create', 2025330000, NULL, 1, 0);
INSERT INTO wait VALUES ('AAAA', 0, 2, 1, 2025337002);
INSERT INTO wait VALUES ('BBBB', 0, 2, 1, 2025337002);
INSERT INTO wait VALUES ('CCCC', 0, 2, 1, 2025337002);
INSERT INTO clock VALUES (0, 14, 3, 60, 60, 30, 120, 1000, 60, 60, 500, 15);
COMMIT;
