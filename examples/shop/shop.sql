-- Three dictionaries of a shop.

CREATE DICTIONARY colours (
  id UInt64,
  name String DEFAULT 'unknown',
  since Nullable(Date)
)
PRIMARY KEY id
SOURCE(EXECUTABLE(command 'printf "1\\tred\\t2019-03-01\\n2\\tgreen\\t\\\\N\\n"' format 'TabSeparated'))
LAYOUT(FLAT())
LIFETIME(0);

CREATE DICTIONARY shop.prices (
  item UInt64,
  price Decimal(9, 2),
  label String
)
PRIMARY KEY item
SOURCE(EXECUTABLE(command 'printf "10,4.50,\\"table, round\\"\\n11,129.00,chair\\n"' format CSV))
LAYOUT(FLAT(MAX_ARRAY_SIZE 1000))
SETTINGS(max_output_bytes = 65536)
COMMENT 'one line for each item';

-- Its program lies in user_scripts beside this file, and is run without a shell.
CREATE DICTIONARY squares (n UInt64, square UInt64)
PRIMARY KEY n
SOURCE(EXECUTABLE(command 'squares.sh 12' format TSV execute_direct 1))
LAYOUT(FLAT());
