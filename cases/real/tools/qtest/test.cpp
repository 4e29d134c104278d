#include <QtTest>

class Store : public QObject {
  Q_OBJECT
 private slots:
  void adds() { qDebug("a <message>"); QCOMPARE(1 + 1, 2); }
#ifdef RUN_red
  void fails() { QCOMPARE(1, 2); }
  void isSkipped() { QSKIP("no network"); }
  void shouldFail() { QEXPECT_FAIL("", "later", Continue); QVERIFY(false); }
  void shouldFailAndPasses() { QEXPECT_FAIL("", "later", Continue); QVERIFY(true); }
  void ofRows_data() {
    QTest::addColumn<int>("number");
    QTest::newRow("one") << 1;
    QTest::newRow("two & <") << 2;
  }
  void ofRows() { QFETCH(int, number); QCOMPARE(number, 1); }
#endif
};

QTEST_APPLESS_MAIN(Store)
#include "test.moc"
