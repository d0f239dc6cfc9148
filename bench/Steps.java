// The loop that `local_bench` runs: javac makes the same instructions of `counted`.
class Steps {
    static int counted(int count) {
        int sum = 0;
        int i = 0;
        do {
            i++;
            sum += i;
        } while (i < count);
        return sum;
    }

    public static void main(String[] words) {
        int count = Integer.parseInt(words[0]);
        System.out.println(8L * count + " steps, Int(" + counted(count) + ")");
    }
}
