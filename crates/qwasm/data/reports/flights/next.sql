-- Ten reports on the flights with DISTINCT (ISO/IEC 9075:1992, 7.9) and LIKE (8.5).
-- next.report has the answers of PostgreSQL 15.18 over the same rows, in the form of docs/FORMATS.md: quotients and averages cut off at the scales of
-- docs/LANGUAGE.md, numbers printed at these, nulls below all values, texts by their octets (its collation C). Patterns were given to it without an escape character.

-- 1. The countries that flights go to from Germany
SELECT DISTINCT D.COUNTRY
FROM FLIGHTS F JOIN AIRPORTS O ON O.CODE = F.ORIGIN JOIN AIRPORTS D ON D.CODE = F.DESTINATION
WHERE O.COUNTRY = 'DE'
ORDER BY COUNTRY;

-- 2. The cabins and how many bags were taken there
SELECT DISTINCT CABIN, BAGS FROM BOOKINGS;

-- 3. Airports that are named for a person with an accent in the name
SELECT CODE, NAME
FROM AIRPORTS
WHERE NAME LIKE '%á%' OR NAME LIKE '%ß%'
ORDER BY CODE;

-- 4. Passengers whose family name begins with J or K, by the comma behind it
SELECT NAME, NATION
FROM PASSENGERS
WHERE NAME LIKE 'J%, %' OR NAME LIKE 'K%, %'
ORDER BY NAME;

-- 5. Window seats on the left in rows of one digit
SELECT ID, FLIGHT, SEAT
FROM BOOKINGS
WHERE SEAT LIKE '_A'
ORDER BY ID;

-- 6. Seats that aren't at a window
SELECT CABIN, COUNT(*) AS BOOKINGS
FROM BOOKINGS
WHERE SEAT NOT LIKE '%A' AND SEAT NOT LIKE '%F'
GROUP BY CABIN;

-- 7. The nations of those who flew in business or first
SELECT DISTINCT P.NATION, B.CABIN
FROM PASSENGERS P JOIN BOOKINGS B ON B.PASSENGER = P.ID
WHERE B.CABIN IN ('business', 'first')
ORDER BY NATION, CABIN;

-- 8. Airlines by a word in their name
SELECT CODE, NAME, CASE WHEN NAME LIKE '%Air%' THEN 'air' WHEN NAME LIKE '% %' THEN 'two words' ELSE 'one word' END AS KIND
FROM AIRLINES
ORDER BY KIND, CODE;

-- 9. Each number of flights that a day has had
SELECT DISTINCT COUNT(*) AS FLIGHTS FROM FLIGHTS GROUP BY DAY;

-- 10. Pairs of cities with flights in both directions, each pair once
SELECT DISTINCT O.CITY AS ONE, D.CITY AS OTHER
FROM FLIGHTS F
JOIN FLIGHTS G ON G.ORIGIN = F.DESTINATION AND G.DESTINATION = F.ORIGIN
JOIN AIRPORTS O ON O.CODE = F.ORIGIN
JOIN AIRPORTS D ON D.CODE = F.DESTINATION
WHERE O.CITY < D.CITY
ORDER BY ONE, OTHER;
