-- What the shards' reports come to, statement by statement. An average is the quotient of the sums, whose first two digits behind the
-- point and whose further four are taken apart, as the sum times 10,000 could have more than 18 digits.
SELECT ID, PRICE FROM PART_1 ORDER BY PRICE DESC, ID;
SELECT KIND, SUM(N) AS N, SUM(M) AS M, SUM(S) AS S, MIN(FIRST_DAY) AS FIRST_DAY, MAX(TOP) AS TOP,
    SUM(S) / NULLIF(SUM(M), 0) + (SUM(S) - SUM(S) / NULLIF(SUM(M), 0) * SUM(M)) * 1.0000 / NULLIF(SUM(M), 0) AS A
FROM PART_2 GROUP BY KIND ORDER BY KIND;
SELECT CITY, SUM(N) AS N,
    SUM(S) / NULLIF(SUM(M), 0) + (SUM(S) - SUM(S) / NULLIF(SUM(M), 0) * SUM(M)) * 1.0000 / NULLIF(SUM(M), 0) AS A
FROM PART_3 GROUP BY CITY HAVING SUM(N) > 10 ORDER BY CITY;
SELECT COALESCE(SUM(N), 0) AS N FROM PART_4 ORDER BY N;
SELECT DISTINCT SHOP, KIND FROM PART_5 ORDER BY SHOP, KIND;
