import static org.junit.Assert.*;

import org.junit.Test;

public class StoreTest {
    static int tries;

    @Test
    public void opensAtTheSecondTry() {
        assertEquals("tries", 2, ++tries);
    }

    @Test
    public void fails() {
        assertEquals("rows", 3, 2);
    }
}
