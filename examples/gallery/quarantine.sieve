# A mail with a file that is known to be harmful goes into quarantine and nowhere else, whatever the file's name is.
# The list has the SHA-256 of each such file, as sha256sum prints it.
require ["foreverypart", "fileinto", "vnd.depot"];

foreverypart {
    if partdigest [
        "3149beb2669da1dfb36376ebddf5dc4b97f3d73539791f14f5e63802946ae1cc",
        "fa0c4eda9399624942731c40a3a9e243cebdd4bc8a431b6fe4f7f1d83f287624"
    ] {
        fileinto "Quarantine";
        stop;
    }
}
