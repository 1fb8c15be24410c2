CREATE DICTIONARY d (id UInt64, x String DEFAULT '') PRIMARY KEY id SOURCE(EXECUTABLE(command 'printf "1\\ta\\n2\\tb\\n"' format 'TabSeparated')) LAYOUT(FLAT()) LIFETIME(0);
