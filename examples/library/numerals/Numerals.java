import java.math.BigInteger;
import java.util.ArrayList;
import java.util.List;

/** Integers of any size: factorials, Fibonacci numbers, primes and codes. */
public class Numerals {
    static BigInteger factorial(int n) {
        BigInteger product = BigInteger.ONE;
        for (int i = 2; i <= n; i++) {
            product = product.multiply(BigInteger.valueOf(i));
        }
        return product;
    }

    static BigInteger fibonacci(int n) {
        BigInteger a = BigInteger.ZERO;
        BigInteger b = BigInteger.ONE;
        for (int i = 0; i < n; i++) {
            BigInteger next = a.add(b);
            a = b;
            b = next;
        }
        return a;
    }

    static BigInteger root(BigInteger n) {
        BigInteger x = BigInteger.ONE.shiftLeft(n.bitLength() / 2 + 1);
        while (true) {
            BigInteger better = x.add(n.divide(x)).shiftRight(1);
            if (better.compareTo(x) >= 0) {
                return x;
            }
            x = better;
        }
    }

    public static void main(String[] args) {
        System.out.println(factorial(40));
        System.out.println(fibonacci(300));
        System.out.println(factorial(30).divide(factorial(28)) + " " + factorial(30).mod(new BigInteger("1000000007")));
        System.out.println(root(factorial(50)) + " " + root(BigInteger.TEN.pow(40)));

        List<BigInteger> primes = new ArrayList<>();
        BigInteger p = BigInteger.TEN.pow(6);
        while (primes.size() < 3) {
            p = p.nextProbablePrime();
            primes.add(p);
        }
        System.out.println(primes);

        BigInteger n = primes.get(0).multiply(primes.get(1));
        BigInteger phi = primes.get(0).subtract(BigInteger.ONE).multiply(primes.get(1).subtract(BigInteger.ONE));
        BigInteger open = BigInteger.valueOf(65537);
        BigInteger secret = open.modInverse(phi);
        BigInteger message = new BigInteger("cafebabe", 16).shiftRight(4);
        BigInteger code = message.modPow(open, n);
        System.out.println(code + " " + code.modPow(secret, n).toString(16) + " " + open.gcd(phi));

        BigInteger negative = new BigInteger("-123456789012345678901234567890");
        System.out.println(negative.shiftRight(70) + " " + negative.and(BigInteger.valueOf(0xffff)) + " " + negative.not().bitCount()
            + " " + negative.remainder(BigInteger.valueOf(97)) + " " + negative.mod(BigInteger.valueOf(97)) + " " + negative.hashCode()
            + " " + negative.longValue() + " " + negative.intValue() + " " + negative.signum() + " " + negative.abs().bitLength());
        try {
            negative.divide(BigInteger.ZERO);
        } catch (ArithmeticException e) {
            System.out.println(e.getMessage());
        }
    }
}
