//! `include/piongseut.h` row by row. A constant has the header's name without
//! `PIONGSEUT_`, a struct says its name there, and a function is called by its
//! own. The places of fields are those of the archive, for x86-64.

crate::table::header! {
    constants {
        VERSION_MAJOR: u32 = 5;
        VERSION_MINOR: u32 = 0;
        VERSION_PATCH: u32 = 0;

        GOOD: u8 = 0x00;
        CHECK_CONDITION: u8 = 0x02;
        BUSY: u8 = 0x08;
        NONE: u8 = 0xFF;

        ACCEPTED: u8 = 0;
        REFUSED_SIZE: u8 = 1;
        REFUSED_SHORT: u8 = 2;
        REFUSED_OPCODE: u8 = 3;
        REFUSED_FIELD: u8 = 4;
        REFUSED_PAGE: u8 = 5;
        REFUSED_NO_BLOCK: u8 = 6;
        REFUSED_UNUSABLE: u8 = 7;
        REFUSED_ROOM: u8 = 8;
        REFUSED_PROTOCOL: u8 = 9;
        REFUSED_PENDING: u8 = 10;
        REFUSED_T_LENGTH: u8 = 11;
        REFUSED_T_DIR: u8 = 12;
        REFUSED_LENGTH_ZERO: u8 = 13;
        REFUSED_ABOVE_DECLARED: u8 = 14;
        REFUSED_NOTHING_PENDING: u8 = 15;
        REFUSED_NOT_A_PAGE: u8 = 16;
        REFUSED_CENSUS: u8 = 17;
        REFUSED_DAMAGED: u8 = 18;
        REFUSED_PORT: u8 = 19;
        REFUSED_SERVICE_ACTION: u8 = 20;
        REFUSED_CAPTURE: u8 = 21;
        REFUSED_PACKET: u8 = 22;
        REFUSED_ORDER: u8 = 23;

        /// Bytes of an IDENTIFY block, and of the store of an intake.
        BLOCK_SIZE: usize = 512;
        /// Bytes of a drive's signature.
        SIGNATURE_SIZE: usize = 20;
        /// Bytes of the SAS address of a target port.
        ADDRESS_SIZE: usize = 8;
        /// Bytes of the translator's texts: vendor 8, product 16, revision 4.
        TEXTS_SIZE: usize = 28;
        /// Bytes of a drive's registers; [`register`](crate::register) names their places.
        REGISTERS_SIZE: usize = 11;
        /// The least sense room, in every form.
        SENSE_SIZE: usize = 22;

        SENSE_UNSTATED: u8 = 0;
        SENSE_FIXED: u8 = 1;
        SENSE_DESCRIPTOR: u8 = 2;
        /// Sense bytes of a refusal in the descriptor form; with registers they are [`SENSE_SIZE`].
        REFUSAL_SENSE_SIZE: usize = 8;
        /// Sense bytes in the fixed form.
        FIXED_SENSE_SIZE: usize = 18;

        /// Bytes of standard data.
        STANDARD_SIZE: usize = 36;
        /// Bytes of page 00h of a drive that is no packet drive.
        PAGE00_SIZE: usize = 8;
        /// Bytes of page 80h.
        PAGE80_SIZE: usize = 24;
        /// Bytes of page 83h of a drive with a name, without ports.
        PAGE83_WWN_SIZE: usize = 16;
        /// Bytes of page 83h of a drive without a name, without ports.
        PAGE83_TEXT_SIZE: usize = 76;
        /// The most bytes of page 83h: texts and both ports.
        PAGE83_MOST_SIZE: usize = 96;
        /// Bytes of page 89h. Room for it is enough for every INQUIRY.
        PAGE89_SIZE: usize = 572;

        /// The error register.
        REGISTER_ERROR: usize = 0;
        /// The upper byte of the count.
        REGISTER_COUNT_HIGH: usize = 1;
        /// The lower byte of the count.
        REGISTER_COUNT_LOW: usize = 2;
        /// The upper byte of LBA low.
        REGISTER_LBA_LOW_HIGH: usize = 3;
        /// The lower byte of LBA low.
        REGISTER_LBA_LOW_LOW: usize = 4;
        /// The upper byte of LBA mid.
        REGISTER_LBA_MID_HIGH: usize = 5;
        /// The lower byte of LBA mid.
        REGISTER_LBA_MID_LOW: usize = 6;
        /// The upper byte of LBA high.
        REGISTER_LBA_HIGH_HIGH: usize = 7;
        /// The lower byte of LBA high.
        REGISTER_LBA_HIGH_LOW: usize = 8;
        /// The device register.
        REGISTER_DEVICE: usize = 9;
        /// The status register.
        REGISTER_STATUS: usize = 10;

        PORT_NONE: u16 = 0;
        PORT_RELATIVE: u16 = 1;
        PORT_SAS: u16 = 2;

        SHOWN_REPLY: u8 = 0;
        SHOWN_ROOM: u8 = 1;

        EDITION_FIRST: u8 = 1;
        EDITION_LATER: u8 = 2;

        PROTOCOL_ATA_HARDWARE_RESET: u8 = 0;
        PROTOCOL_SRST: u8 = 1;
        PROTOCOL_NON_DATA: u8 = 3;
        PROTOCOL_PIO_DATA_IN: u8 = 4;
        PROTOCOL_PIO_DATA_OUT: u8 = 5;
        PROTOCOL_DMA: u8 = 6;
        PROTOCOL_EXECUTE_DEVICE_DIAGNOSTIC: u8 = 8;
        PROTOCOL_DEVICE_RESET: u8 = 9;
        PROTOCOL_UDMA_DATA_IN: u8 = 10;
        PROTOCOL_UDMA_DATA_OUT: u8 = 11;
        PROTOCOL_RETURN_RESPONSE_INFORMATION: u8 = 15;

        DIRECTION_NONE: u8 = 0;
        DIRECTION_FROM_DRIVE: u8 = 1;
        DIRECTION_TO_DRIVE: u8 = 2;

        STATE_NOTHING: u32 = 0;
        STATE_ORDER: u32 = 1;
        STATE_RESET_OVER_ORDER: u32 = 2;

        FORM_REFUSED: u8 = 0;
        FORM_WWN: u8 = 1;
        FORM_TEXT: u8 = 2;
        /// Bytes of a world wide name.
        WWN_SIZE: usize = 8;
        /// Bytes of a model.
        MODEL_SIZE: usize = 40;
        /// Bytes of a serial number.
        SERIAL_SIZE: usize = 20;
        NAME_SIZE: usize = 60;

        /// The most blocks of a roll.
        ROLL_BLOCKS: usize = 64;

        /// The most blocks of a census.
        CENSUS_BLOCKS: u16 = 65535;
        /// Places of a census' counts by Ultra DMA mode: 0 to 6, and none.
        CENSUS_MODES: usize = 8;
        /// The place of the blocks without an Ultra DMA mode.
        CENSUS_NO_MODE: usize = 7;
        /// Places of a census' counts by major version: 1 to 14, and none.
        CENSUS_VERSIONS: usize = 15;
        /// The place of the blocks without a major version.
        CENSUS_NO_VERSION: usize = 14;

        /// The most bytes of a built command.
        COMMAND_SIZE: usize = 16;
        /// Bytes of a built command in the short form.
        COMMAND_SHORT_SIZE: usize = 12;
        /// Bytes of a built command in the long form.
        COMMAND_LONG_SIZE: usize = 16;
    }
    structs {
        Ports = piongseut_ports, size 4, aligned to 2 {
            chosen: u16, at 0;
            relative: u16, at 2;
        }
        InquiryAnswer = piongseut_inquiry_answer, size 16, aligned to 8 {
            number: u8, at 0;
            status: u8, at 1;
            shown: u8, at 2;
            count: usize, at 8;
        }
        Order = piongseut_order, size 28, aligned to 4 {
            length: u32, at 0;
            auxiliary: u32, at 4;
            features: u16, at 8;
            count: u16, at 10;
            lba_low: u16, at 12;
            lba_mid: u16, at 14;
            lba_high: u16, at 16;
            quiet_seconds: u16, at 18;
            sectors_per_block: u16, at 20;
            device: u8, at 22;
            command: u8, at 23;
            protocol: u8, at 24;
            ck_cond: u8, at 25;
            extend: u8, at 26;
            direction: u8, at 27;
        }
        Record = piongseut_record, size 60, aligned to 4 {
            state: u32, at 0;
            order: Order, at 4;
            older: Order, at 32;
        }
        SubmitAnswer = piongseut_submit_answer, size 32, aligned to 4 {
            number: u8, at 0;
            status: u8, at 1;
            order: Order, at 4;
        }
        CompleteAnswer = piongseut_complete_answer, size 4, aligned to 1 {
            number: u8, at 0;
            status: u8, at 1;
            lost: u8, at 2;
            lost_protocol: u8, at 3;
        }
        WritePage83Answer = piongseut_write_page83_answer, size 16, aligned to 8 {
            number: u8, at 0;
            count: usize, at 8;
        }
        ReadPage83Answer = piongseut_read_page83_answer, size 74, aligned to 2 {
            number: u8, at 0;
            form: u8, at 1;
            name: [u8; NAME_SIZE], at 2;
            ports: Ports, at 62;
            address: [u8; ADDRESS_SIZE], at 66;
        }
        CheckAnswer = piongseut_check_answer, size 16, aligned to 8 {
            number: u8, at 0;
            accepted: u8, at 1;
            tag: u8, at 2;
            place: usize, at 8;
        }
        RollAnswer = piongseut_roll_answer, size 6, aligned to 2 {
            number: u8, at 0;
            blocks: u16, at 2;
            drives: u16, at 4;
        }
        /// An intake, which collects the 512 bytes of an IDENTIFY block that
        /// arrives in runs of any length: these two numbers, and a store of 512
        /// bytes that is lent to each call. What it has stands in the store's
        /// first `have` bytes; the others mean nothing, so that a store needs no
        /// clearing.
        ///
        /// ```
        /// use piongseut::Intake;
        ///
        /// let (mut intake, mut store) = (Intake::empty(), [0xEE; 512]);
        /// let first = intake.take(&mut store, &[0x5A; 300])?;
        /// assert_eq!((first.used, first.complete), (300, false));
        /// assert_eq!(intake.block(&store)?, []);
        /// let second = intake.take(&mut store, &[0x3C; 300])?;
        /// assert_eq!((second.used, second.complete), (212, true));
        /// assert_eq!(intake.block(&store)?, store);
        /// # Ok::<(), piongseut::Refusal>(())
        /// ```
        Intake = piongseut_intake, size 4, aligned to 2 {
            /// Bytes that it has; more than 512 is refused.
            have: u16, at 0;
            /// Their sum modulo 256, counted on from the sum that was here
            /// before. No function asks it.
            sum: u16, at 2;
        }
        IntakeTakeAnswer = piongseut_intake_take_answer, size 8, aligned to 2 {
            next: Intake, at 0;
            used: u16, at 4;
            number: u8, at 6;
            complete: u8, at 7;
        }
        IntakeBlockAnswer = piongseut_intake_block_answer, size 16, aligned to 8 {
            number: u8, at 0;
            count: usize, at 8;
        }
        IntakeGatherAnswer = piongseut_intake_gather_answer, size 16, aligned to 8 {
            number: u8, at 0;
            count: usize, at 8;
        }
        /// A census of the IDENTIFY blocks that were fed to it: how many of each
        /// kind. Each grouping sums to `blocks`; one that does not is refused.
        ///
        /// ```
        /// use piongseut::{Census, Refusal, CENSUS_NO_MODE};
        ///
        /// let mut census = Census::empty();
        /// let mut block = [0; 512];
        /// block[2 * 80] = 0x10; // word 80, bit 4
        /// census.feed(&block)?;
        /// assert_eq!((census.blocks, census.named, census.unnamed), (1, 0, 1));
        /// assert_eq!((census.udma[CENSUS_NO_MODE], census.version[4 - 1]), (1, 1));
        /// assert_eq!(census.feed(&[]), Err(Refusal::Size));
        /// # Ok::<(), Refusal>(())
        /// ```
        Census = piongseut_census, size 52, aligned to 2 {
            /// Blocks that were fed.
            blocks: u16, at 0;
            /// Those of them that carry a world wide name.
            named: u16, at 2;
            /// Those that carry none.
            unnamed: u16, at 4;
            /// By highest Ultra DMA mode: `udma[m]` is mode m, and
            /// `udma[CENSUS_NO_MODE]` no mode.
            udma: [u16; CENSUS_MODES], at 6;
            /// By highest major version: `version[v - 1]` is version v, and
            /// `version[CENSUS_NO_VERSION]` no version.
            version: [u16; CENSUS_VERSIONS], at 22;
        }
        CensusAnswer = piongseut_census_answer, size 54, aligned to 2 {
            next: Census, at 0;
            number: u8, at 52;
        }
        BuildAnswer = piongseut_build_answer, size 18, aligned to 1 {
            number: u8, at 0;
            size: u8, at 1;
            command: [u8; COMMAND_SIZE], at 2;
        }
    }
    functions {
        piongseut_inquiry(
            command: *const u8, command_size: usize,
            block: *const u8, block_size: usize,
            signature: *const u8, signature_size: usize,
            texts: *const u8, texts_size: usize,
            reply: *const u8, reply_size: usize,
            ports: Ports,
            address: *const u8, address_size: usize,
            form: u8,
            room: *mut u8, room_size: usize,
            sense: *mut u8, sense_size: usize
        ) -> InquiryAnswer;
        piongseut_record_empty() -> Record;
        piongseut_submit(
            record: *mut Record,
            command: *const u8, command_size: usize,
            registers: *const u8, registers_size: usize,
            block: *const u8, block_size: usize,
            declared: u32,
            edition: u8,
            form: u8,
            sense: *mut u8, sense_size: usize
        ) -> SubmitAnswer;
        piongseut_complete(
            record: *mut Record,
            registers: *const u8, registers_size: usize,
            form: u8,
            sense: *mut u8, sense_size: usize
        ) -> CompleteAnswer;
        piongseut_write_page83(
            block: *const u8, block_size: usize,
            ports: Ports,
            address: *const u8, address_size: usize,
            room: *mut u8, room_size: usize
        ) -> WritePage83Answer;
        piongseut_read_page83(page: *const u8, page_size: usize) -> ReadPage83Answer;
        piongseut_check(capture: *const u8, capture_size: usize) -> CheckAnswer;
        piongseut_roll(
            blocks: *const u8, blocks_size: usize,
            rows: *mut u16, rows_size: usize
        ) -> RollAnswer;
        piongseut_intake_empty() -> Intake;
        piongseut_intake_take(
            intake: Intake,
            store: *mut u8, store_size: usize,
            run: *const u8, run_size: usize
        ) -> IntakeTakeAnswer;
        piongseut_intake_block(intake: Intake, store_size: usize) -> IntakeBlockAnswer;
        piongseut_intake_gather(
            haves: *const u16, intake_count: usize,
            stores: *const u8, stores_size: usize,
            room: *mut u8, room_size: usize
        ) -> IntakeGatherAnswer;
        piongseut_census_empty() -> Census;
        piongseut_census_feed(census: Census, block: *const u8, block_size: usize) -> CensusAnswer;
        piongseut_build(order: Order) -> BuildAnswer;
    }
}
