//! In place of rust_htslib: there are no BAM and VCF files, so opening one fails and no value of these types exists.

pub type Opened<T> = Result<T, ()>;

pub mod bam {
    use super::Opened;
    use std::path::Path;

    pub trait Read {}
    pub enum Reader {}
    pub enum IndexedReader {}
    pub enum HeaderView {}
    pub enum Header {}
    pub enum Writer {}
    pub enum Format {
        Bam,
    }

    impl Reader {
        pub fn from_path<P: AsRef<Path>>(_: P) -> Opened<Reader> {
            Err(())
        }

        pub fn header(&self) -> &HeaderView {
            match *self {}
        }
    }

    impl IndexedReader {
        pub fn from_path<P: AsRef<Path>>(_: P) -> Opened<IndexedReader> {
            Err(())
        }

        pub fn header(&self) -> &HeaderView {
            match *self {}
        }

        pub fn fetch(&mut self, _: (u32, u32, u32)) -> Opened<()> {
            match *self {}
        }

        pub fn records(&mut self) -> Vec<Opened<record::Record>> {
            match *self {}
        }
    }

    impl HeaderView {
        pub fn target_names(&self) -> Vec<&[u8]> {
            match *self {}
        }

        pub fn target_len(&self, _: u32) -> Option<u64> {
            match *self {}
        }
    }

    impl Header {
        pub fn from_template(view: &HeaderView) -> Header {
            match *view {}
        }
    }

    impl Writer {
        pub fn from_path<P: AsRef<Path>>(_: P, header: &Header, _: Format) -> Opened<Writer> {
            match *header {}
        }

        pub fn write(&mut self, _: &record::Record) -> Opened<()> {
            match *self {}
        }
    }

    pub mod record {
        use super::super::Opened;

        pub enum Record {}
        pub enum Aux {
            U8(u8),
            U32(u32),
        }

        macro_rules! never {
            ($($name:ident: $t:ty),*) => { $(
                pub fn $name(&self) -> $t {
                    match *self {}
                }
            )* };
        }

        impl Record {
            never!(qname: &[u8], mapq: u8, is_quality_check_failed: bool, is_duplicate: bool);
            never!(is_secondary: bool, is_unmapped: bool, is_supplementary: bool);

            pub fn aux(&self, _: &[u8]) -> Opened<Aux> {
                match *self {}
            }

            pub fn remove_aux(&mut self, _: &[u8]) -> Opened<()> {
                match *self {}
            }

            pub fn push_aux(&mut self, _: &[u8], _: Aux) -> Opened<()> {
                match *self {}
            }
        }
    }

    pub mod index {
        use super::super::Opened;

        pub enum Type {
            Bai,
        }

        pub fn build(_: &String, _: Option<&String>, _: Type, _: u32) -> Opened<()> {
            Err(())
        }
    }
}

pub mod bcf {
    use super::Opened;
    use std::path::Path;

    pub trait Read {}
    pub enum Reader {}
    pub enum HeaderView {}
    pub enum Record {}

    impl Reader {
        pub fn from_path<P: AsRef<Path>>(_: P) -> Opened<Reader> {
            Err(())
        }

        pub fn header(&self) -> &HeaderView {
            match *self {}
        }

        pub fn records(&mut self) -> Vec<Opened<Record>> {
            match *self {}
        }
    }

    impl HeaderView {
        pub fn rid2name(&self, _: u32) -> Opened<&[u8]> {
            match *self {}
        }
    }

    impl Record {
        pub fn rid(&self) -> Option<u32> {
            match *self {}
        }

        pub fn alleles(&self) -> Vec<&[u8]> {
            match *self {}
        }

        pub fn pos(&self) -> i64 {
            match *self {}
        }
    }
}
