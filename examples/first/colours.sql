CREATE DICTIONARY colours (id UInt64, name String DEFAULT '') PRIMARY KEY id SOURCE(EXECUTABLE(command 'printf "1\\tred\\n2\\tgreen\\n"' format 'TabSeparated')) LAYOUT(FLAT()) LIFETIME(0);
