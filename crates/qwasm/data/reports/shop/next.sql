-- Ten reports on the shop with DISTINCT (ISO/IEC 9075:1992, 7.9) and LIKE (8.5).
-- next.report has the answers of PostgreSQL 15.18 over the same rows, in the form of docs/FORMATS.md: quotients and averages cut off at the scales of
-- docs/LANGUAGE.md, numbers printed at these, nulls below all values, texts by their octets (its collation C). Patterns were given to it without an escape character.

-- 1. The countries that the shop delivers to
SELECT DISTINCT COUNTRY FROM CUSTOMERS ORDER BY COUNTRY;

-- 2. Which segments there are in which countries
SELECT DISTINCT COUNTRY, SEGMENT
FROM CUSTOMERS
WHERE COUNTRY IN ('DE', 'FR', 'DK')
ORDER BY COUNTRY, SEGMENT;

-- 3. Pans, of any kind, and cups
SELECT ID, TITLE, PRICE
FROM ITEMS
WHERE TITLE LIKE '%pan%' OR TITLE LIKE '%cup%';

-- 4. Customers whose name has an ø or an ö
SELECT NAME, CITY
FROM CUSTOMERS
WHERE NAME LIKE '%ø%' OR NAME LIKE '%ö%'
ORDER BY NAME;

-- 5. Paper goods that are no notebooks
SELECT TITLE, PRICE
FROM ITEMS
WHERE CATEGORY = 'paper' AND TITLE NOT LIKE 'Notebook%'
ORDER BY TITLE;

-- 6. Who bought a game, each once
SELECT DISTINCT C.NAME, C.COUNTRY
FROM CUSTOMERS C JOIN ORDERS O ON O.CUSTOMER = C.ID JOIN LINES L ON L.ORDER_ID = O.ID JOIN ITEMS I ON I.ID = L.ITEM
WHERE I.CATEGORY = 'games' AND O.STATUS <> 'cancelled';

-- 7. Notebooks by size: any one character stands for the digit
SELECT TITLE, STOCK
FROM ITEMS
WHERE TITLE LIKE 'Notebook A_, %';

-- 8. How many orders customers have, each number once
SELECT DISTINCT COUNT(*) AS ORDERS
FROM ORDERS
GROUP BY CUSTOMER;

-- 9. Kinds of garden goods by their titles
SELECT TITLE, CASE WHEN TITLE LIKE 'Seeds:%' THEN 'seeds' WHEN TITLE LIKE '%pot%' OR TITLE LIKE '%can%' THEN 'vessels' ELSE 'tools' END AS KIND
FROM ITEMS
WHERE CATEGORY = 'garden'
ORDER BY KIND, TITLE;

-- 10. Customers of the cities that begin with M, have two characters, or end in hus
SELECT CITY, COUNT(*) AS CUSTOMERS
FROM CUSTOMERS
WHERE CITY IS NOT NULL
GROUP BY CITY
HAVING CITY LIKE 'M%' OR CITY LIKE '__' OR CITY LIKE '%hus'
ORDER BY CUSTOMERS DESC, CITY;
