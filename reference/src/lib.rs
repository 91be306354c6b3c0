//! The published Rust of docs/src, compiled as it stands.
//!
//! A file whose private fields the lists need is `include!`d, so that code beside it can
//! read and set them. The others are `#[path]` modules; those that begin with an inner
//! attribute or comment could not be `include!`d. Lints are switched off for these
//! modules only, since nothing in them is ours to change, and `rustfmt::skip` keeps
//! `cargo fmt` from rewriting the files of the `#[path]` modules.

/// Stands for the file ell_common.rs, which is not among the published ones.
mod ell_common {
    /// Implements `SearchSpace`, whose trait stands in cutting_plane.rs. The names there leave
    /// no choice: `xc` and `tsq` give the fields of these names, `set_xc` sets the first, and
    /// each update calls the function of the cut choice that has its name.
    macro_rules! impl_search_space {
        ($space:ty) => {
            impl crate::cutting_plane::SearchSpace for $space {
                type ArrayType = Arr;

                fn xc(&self) -> &Arr {
                    &self.xc
                }

                fn tsq(&self) -> f64 {
                    self.tsq
                }

                fn update_bias_cut<T>(&mut self, cut: &(Arr, T)) -> CutStatus
                where
                    T: UpdateByCutChoice<Self, ArrayType = Arr>,
                {
                    cut.1.update_bias_cut_by(self, &cut.0)
                }

                fn update_central_cut<T>(&mut self, cut: &(Arr, T)) -> CutStatus
                where
                    T: UpdateByCutChoice<Self, ArrayType = Arr>,
                {
                    cut.1.update_central_cut_by(self, &cut.0)
                }

                fn update_q<T>(&mut self, cut: &(Arr, T)) -> CutStatus
                where
                    T: UpdateByCutChoice<Self, ArrayType = Arr>,
                {
                    cut.1.update_q_by(self, &cut.0)
                }

                fn set_xc(&mut self, x: Arr) {
                    self.xc = x;
                }
            }
        };
    }
    pub(crate) use impl_search_space;
}

#[allow(warnings, clippy::all)]
#[path = "../../docs/src/src/arr.rs"]
#[rustfmt::skip]
pub mod arr;

#[allow(warnings, clippy::all)]
#[path = "../../docs/src/src/cutting_plane.rs"]
#[rustfmt::skip]
pub mod cutting_plane;

// Every legal cursor is reached from a fresh one by `advance`, so no private field is needed.
#[allow(warnings, clippy::all)]
#[path = "../../docs/src/src/round_robin.rs"]
#[rustfmt::skip]
pub mod round_robin;

#[allow(warnings, clippy::all)]
pub mod ell_calc {
    include!("../../docs/src/src/ell_calc.rs");

    impl EllCalcCore {
        /// The six numbers, two of them private.
        pub fn six(&self) -> [f64; 6] {
            [
                self.n_f,
                self.n_plus_1,
                self.half_n,
                self.inv_n,
                self.cst1,
                self.cst2,
            ]
        }
    }

    impl EllCalc {
        /// The private number beside the helper.
        pub fn own_n_f(&self) -> f64 {
            self.n_f
        }
    }
}

#[allow(warnings, clippy::all)]
pub mod ell {
    include!("../../docs/src/src/ell.rs");

    impl Ell {
        /// The private scratch.
        pub fn grad_t(&self) -> &Arr {
            &self.grad_t
        }

        /// Sets the scratch, which an earlier update may have left with anything.
        pub fn set_grad_t(&mut self, grad_t: Arr) {
            self.grad_t = grad_t;
        }
    }
}

#[allow(warnings, clippy::all)]
pub mod ell_stable {
    include!("../../docs/src/src/ell_stable.rs");

    impl EllStable {
        pub fn kappa(&self) -> f64 {
            self.kappa
        }

        pub fn mq(&self) -> &Arr {
            &self.mq
        }

        /// Sets what no constructor sets, so that an update can start from any state.
        pub fn set_tsq(&mut self, tsq: f64) {
            self.tsq = tsq;
        }

        /// The four scratch vectors, in the order of the fields.
        pub fn scratch(&self) -> [&Arr; 4] {
            [&self.inv_ml_g, &self.inv_md_inv_ml_g, &self.gg_t, &self.g_t]
        }

        /// Sets them, since an earlier update may have left them with anything.
        pub fn set_scratch(&mut self, scratch: [Arr; 4]) {
            [self.inv_ml_g, self.inv_md_inv_ml_g, self.gg_t, self.g_t] = scratch;
        }
    }
}

#[path = "../../docs/src/src/oracles"]
pub mod oracles {
    #[allow(warnings, clippy::all)]
    pub mod ldlt_mgr {
        include!("../../docs/src/src/oracles/ldlt_mgr.rs");

        impl LDLTMgr {
            pub fn storage(&self) -> &[f64] {
                &self.storage
            }

            pub fn storage_mut(&mut self) -> &mut [f64] {
                &mut self.storage
            }
        }
    }

    #[allow(warnings, clippy::all)]
    pub mod lmi_oracle {
        include!("../../docs/src/src/oracles/lmi_oracle.rs");

        impl LMIOracle {
            pub fn ldlt_mgr(&self) -> &LDLTMgr {
                &self.ldlt_mgr
            }

            pub fn ldlt_mgr_mut(&mut self) -> &mut LDLTMgr {
                &mut self.ldlt_mgr
            }
        }
    }

    #[allow(warnings, clippy::all)]
    #[rustfmt::skip]
    pub mod lmi_oracle_base;

    #[allow(warnings, clippy::all)]
    pub mod lowpass_oracle {
        include!("../../docs/src/src/oracles/lowpass_oracle.rs");

        impl LowpassOracle {
            /// The cursors of pass, middle and stop.
            pub fn cursors(&self) -> [&RoundRobin; 3] {
                [&self.rr1, &self.rr2, &self.rr3]
            }

            /// An oracle of any table and state, which `new` cannot make.
            #[allow(clippy::too_many_arguments)]
            pub fn with_table(
                spectrum: Vec<Arr>,
                bands: (i32, i32),
                limits: (f64, f64, f64),
                cursors: [RoundRobin; 3],
                idx: [i32; 3],
                peak: (f64, i32),
                more_alt: bool,
            ) -> Self {
                let [rr1, rr2, rr3] = cursors;
                LowpassOracle {
                    more_alt,
                    idx1: idx[0],
                    spectrum,
                    nwpass: bands.0,
                    nwstop: bands.1,
                    lp_sq: limits.0,
                    up_sq: limits.1,
                    sp_sq: limits.2,
                    idx2: idx[1],
                    idx3: idx[2],
                    fmax: peak.0,
                    kmax: peak.1,
                    rr1,
                    rr2,
                    rr3,
                }
            }
        }

        /// `scan_band`, which is private, for a list of its own.
        pub fn scan_band_of(
            spectrum: &[Arr],
            x: &Arr,
            rr: &mut RoundRobin,
            band: (i32, i32),
            lower: f64,
            upper: Option<f64>,
        ) -> (Option<(usize, f64, bool)>, f64, i32, i32) {
            scan_band(spectrum, x, rr, band.0, band.1, lower, upper)
        }
    }
    #[allow(warnings, clippy::all)]
    #[rustfmt::skip]
    pub mod profit_oracle;
}

/// The scope's known values of the upper layers, which also try the code beside the included files.
#[cfg(test)]
mod tests {
    use crate::arr::Arr;
    use crate::cutting_plane::{cutting_plane_feas, Options, OracleFeas, ParallelCut};
    use crate::ell::Ell;
    use crate::oracles::ldlt_mgr::LDLTMgr;
    use crate::oracles::lowpass_oracle::LowpassOracle;
    use crate::round_robin::RoundRobin;

    #[test]
    fn matrix_with_a_witness() {
        let mat = Arr::from_shape_vec(2, 2, vec![1.0, 2.0, 2.0, 1.0]);
        let mut mgr = LDLTMgr::new(2);
        assert!(!mgr.factorize(&mat));
        assert_eq!(mgr.pos, (0, 2));
        assert_eq!(mgr.witness(), 3.0);
        assert_eq!(mgr.wit.data(), [-2.0, 1.0]);
        assert_eq!(mgr.sym_quad(&mat), -3.0);
        assert_eq!(mgr.sym_quad(&Arr::eye(2)), 5.0);
        assert_eq!(mgr.storage()[3], -3.0);
    }

    #[test]
    fn matrix_of_one_zero() {
        let mut mgr = LDLTMgr::new(1);
        assert!(!mgr.factorize(&Arr::zeros(1, 1)));
        assert_eq!(mgr.witness().to_bits(), (-0.0f64).to_bits());
    }

    fn oracle(rows: &[[f64; 2]], bands: (i32, i32), limits: (f64, f64, f64)) -> LowpassOracle {
        let spectrum: Vec<Arr> = rows.iter().map(|r| Arr::from(r.to_vec())).collect();
        let cursors = [(0, bands.0), bands, (bands.1, rows.len() as i32)]
            .map(|(lo, hi)| RoundRobin::new_range(lo, hi));
        let idx = [-1, bands.0 - 1, bands.1 - 1];
        let peak = (f64::NEG_INFINITY, -1);
        LowpassOracle::with_table(spectrum, bands, limits, cursors, idx, peak, true)
    }

    #[test]
    fn three_rows() {
        let rows = [[1.0, 0.0], [1.0, 1.0], [0.0, 1.0]];
        let mut omega = oracle(&rows, (1, 2), (1.0, 2.0, 4.0));
        assert!(omega.assess_feas(&Arr::from(vec![1.5, 1.0])).is_none());
        assert_eq!((omega.fmax, omega.kmax), (1.0, 2));
        let (_, beta) = omega.assess_feas(&Arr::from(vec![3.0, 1.0])).unwrap();
        assert_eq!((omega.idx1, beta), (0, ParallelCut(1.0, Some(2.0))));
        let (_, beta) = omega.assess_feas(&Arr::from(vec![1.5, -1.0])).unwrap();
        assert_eq!((omega.idx3, beta), (2, ParallelCut(1.0, Some(5.0))));
        assert_eq!(omega.cursors().map(RoundRobin::current), [0, 1, 2]);
    }

    #[test]
    fn job_of_one_row() {
        let mut omega = oracle(&[[1.0, 0.0]], (1, 1), (1.0, 2.0, 1.0));
        let mut space = Ell::new_with_matrix(0.25, Arr::eye(2), Arr::new(2));
        let (found, steps) = cutting_plane_feas(&mut omega, &mut space, &Options::new(10, 0.0));
        assert_eq!((found, steps), (None, 0));
        assert_eq!(space.grad_t().data(), [-1.0, 0.0]);
        assert_eq!((space.kappa, space.tsq), (0.25, 0.25));
    }
}
