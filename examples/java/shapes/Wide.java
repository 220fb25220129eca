/** A method whose last local variables have indices above 255, which only wide reaches. */
final class Wide {
    private Wide() {
    }

    /** The sum of the multiples of a thousand below the limit, less the text's length. */
    static long sum(int limit, String text) {
        // Variables without a value: they have places, and are top in the frames.
        int unused000, unused001, unused002, unused003, unused004, unused005, unused006, unused007, unused008;
        int unused009, unused010, unused011, unused012, unused013, unused014, unused015, unused016, unused017;
        int unused018, unused019, unused020, unused021, unused022, unused023, unused024, unused025, unused026;
        int unused027, unused028, unused029, unused030, unused031, unused032, unused033, unused034, unused035;
        int unused036, unused037, unused038, unused039, unused040, unused041, unused042, unused043, unused044;
        int unused045, unused046, unused047, unused048, unused049, unused050, unused051, unused052, unused053;
        int unused054, unused055, unused056, unused057, unused058, unused059, unused060, unused061, unused062;
        int unused063, unused064, unused065, unused066, unused067, unused068, unused069, unused070, unused071;
        int unused072, unused073, unused074, unused075, unused076, unused077, unused078, unused079, unused080;
        int unused081, unused082, unused083, unused084, unused085, unused086, unused087, unused088, unused089;
        int unused090, unused091, unused092, unused093, unused094, unused095, unused096, unused097, unused098;
        int unused099, unused100, unused101, unused102, unused103, unused104, unused105, unused106, unused107;
        int unused108, unused109, unused110, unused111, unused112, unused113, unused114, unused115, unused116;
        int unused117, unused118, unused119, unused120, unused121, unused122, unused123, unused124, unused125;
        int unused126, unused127, unused128, unused129, unused130, unused131, unused132, unused133, unused134;
        int unused135, unused136, unused137, unused138, unused139, unused140, unused141, unused142, unused143;
        int unused144, unused145, unused146, unused147, unused148, unused149, unused150, unused151, unused152;
        int unused153, unused154, unused155, unused156, unused157, unused158, unused159, unused160, unused161;
        int unused162, unused163, unused164, unused165, unused166, unused167, unused168, unused169, unused170;
        int unused171, unused172, unused173, unused174, unused175, unused176, unused177, unused178, unused179;
        int unused180, unused181, unused182, unused183, unused184, unused185, unused186, unused187, unused188;
        int unused189, unused190, unused191, unused192, unused193, unused194, unused195, unused196, unused197;
        int unused198, unused199, unused200, unused201, unused202, unused203, unused204, unused205, unused206;
        int unused207, unused208, unused209, unused210, unused211, unused212, unused213, unused214, unused215;
        int unused216, unused217, unused218, unused219, unused220, unused221, unused222, unused223, unused224;
        int unused225, unused226, unused227, unused228, unused229, unused230, unused231, unused232, unused233;
        int unused234, unused235, unused236, unused237, unused238, unused239, unused240, unused241, unused242;
        int unused243, unused244, unused245, unused246, unused247, unused248, unused249, unused250, unused251;
        int unused252, unused253;
        int multiple = 0;
        long sum = 0;
        String held = text;
        while (multiple < limit) {
            sum += multiple;
            multiple += 1000;
        }
        int length = held.length();
        length = -length;
        length++;
        return sum + length - 1;
    }
}
