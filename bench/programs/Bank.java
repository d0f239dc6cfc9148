// Accounts of long sums, exceptions of the program's own, and threads that move money.
class Bank {
    static class Refused extends Exception {
        final long missing;

        Refused(String message, long missing) {
            super(message);
            this.missing = missing;
        }
    }

    static class Account {
        private static int accounts;
        private final int number;
        private long balance;

        Account(long balance) {
            this.balance = balance;
            number = ++accounts;
        }

        synchronized void pay(long sum) {
            balance += sum;
        }

        synchronized void draw(long sum) throws Refused {
            if (sum < 0) {
                throw new IllegalArgumentException("negative");
            }
            if (balance - sum < limit()) {
                throw new Refused("too much", limit() - (balance - sum));
            }
            balance -= sum;
        }

        long limit() {
            return 0L;
        }

        synchronized long balance() {
            return balance;
        }
    }

    static class Credit extends Account {
        private final long credit;

        Credit(long balance, long credit) {
            super(balance > 0 ? balance : 0);
            this.credit = credit;
        }

        long limit() {
            return -credit;
        }
    }

    static class Teller extends Thread {
        private final Account[] accounts;
        private final int from;
        int refused;

        Teller(Account[] accounts, int from) {
            this.accounts = accounts;
            this.from = from;
        }

        public void run() {
            for (int round = 0; round < 20; round++) {
                Account source = accounts[(from + round) % accounts.length];
                Account target = accounts[(from + 3 * round + 1) % accounts.length];
                try {
                    source.draw(round * 7L);
                    target.pay(round * 7L);
                } catch (Refused e) {
                    refused += e.missing > 0 ? 1 : 0;
                } finally {
                    target.pay(0);
                }
            }
        }
    }

    public static void main(String[] words) throws InterruptedException {
        Account[] accounts = new Account[5];
        for (int i = 0; i < accounts.length; i++) {
            accounts[i] = i % 2 == 0 ? new Account(100L * i) : new Credit(10 * i, 50);
        }
        Teller[] tellers = new Teller[3];
        for (int i = 0; i < tellers.length; i++) {
            tellers[i] = new Teller(accounts, 2 * i);
        }
        for (Teller teller : tellers) {
            teller.start();
        }
        long sum = 0;
        for (Teller teller : tellers) {
            teller.join();
        }
        for (Account account : accounts) {
            sum += account.balance();
        }
        System.out.println(sum);
        try {
            accounts[0].draw(-1);
        } catch (Refused e) {
            System.out.println(e.missing);
        } catch (RuntimeException e) {
            System.out.println(e.getMessage());
        }
    }
}
