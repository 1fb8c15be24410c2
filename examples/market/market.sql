-- lookups of the shop
CREATE DICTIONARY geo.country (
  id UInt64,
  name String DEFAULT 'unknown'
)
PRIMARY KEY id
SOURCE(EXECUTABLE(command 'cat country.tsv' format 'TabSeparated'))
LAYOUT(HASHED())
LIFETIME(MIN 300 MAX 360);

CREATE DICTIONARY tariff (
  zone String, weight UInt8,
  valid_from Date, valid_to Nullable(Date),
  price Decimal(9, 2)
)
PRIMARY KEY zone, weight
SOURCE(EXECUTABLE(command 'cat tariff.csv' format CSV))
LAYOUT(COMPLEX_KEY_RANGE_HASHED(range_lookup_strategy 'max'))
RANGE(MIN valid_from MAX valid_to)
LIFETIME(3600);

CREATE DICTIONARY net (prefix String, asn UInt32, cc String DEFAULT '??')
PRIMARY KEY prefix
SOURCE(EXECUTABLE(command 'cat net.tsv' format TSV))
LAYOUT(IP_TRIE)
LIFETIME(0);
