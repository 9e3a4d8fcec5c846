//! `src/mstg/clustering.rs` of the source, its functions in its order: members carry row numbers,
//! draws stand for the generator, splits have a budget, where the source would panic the call is
//! refused, and in the strict mode it is for an unplaced row too, and `spherical` is passed on to
//! k-means; without progress lines.

use crate::draws::Draws;
use crate::kmeans::run_kmeans;
use crate::math::l2_distance_sqr;
use crate::refusal::{Mode, Refusal};

#[derive(Debug, Clone)]
pub struct Cluster {
    data: Vec<Member>,
    centroid: Vec<f32>,
}

impl Cluster {
    pub fn from_data(data: Vec<Member>) -> Self {
        Self {
            centroid: compute_centroid(&data),
            data,
        }
    }

    pub fn data(&self) -> &[Member] {
        &self.data
    }

    pub fn centroid(&self) -> &[f32] {
        &self.centroid
    }

    pub fn size(&self) -> usize {
        self.data.len()
    }
}

pub struct HierarchicalClustering {
    pub max_cluster_size: usize,
    pub branching_factor: usize,
    pub balance_weight: f32,
    pub max_iterations: usize,
    pub split_budget: usize,
    pub spherical: bool,
    pub mode: Mode,
}

impl HierarchicalClustering {
    pub fn new(
        max_cluster_size: usize,
        branching_factor: usize,
        balance_weight: f32,
        split_budget: usize,
        spherical: bool,
        mode: Mode,
    ) -> Self {
        Self {
            max_cluster_size,
            branching_factor,
            balance_weight,
            max_iterations: 100,
            split_budget,
            spherical,
            mode,
        }
    }

    pub fn cluster(&self, data: &[Member], draws: &mut Draws) -> Result<Grouping, Refusal> {
        if data.is_empty() {
            return Ok(Grouping::default());
        }

        let mut waiting = vec![Cluster::from_data(data.to_vec())];
        let mut finished = vec![];

        let mut splits = 0;
        let mut unplaced = 0;
        while let Some(cluster) = waiting.pop() {
            if cluster.size() <= self.max_cluster_size {
                finished.push(cluster);
            } else {
                // Here the source would panic in k-means, or could split for ever.
                if cluster.size() < self.branching_factor {
                    return Err(Refusal::FewerThanBranching);
                }
                if splits == self.split_budget {
                    return Err(Refusal::BudgetSpent);
                }
                splits += 1;

                let (parts, lost) = self.split_cluster(&cluster, draws)?;
                unplaced += lost;

                for part in parts {
                    waiting.push(part);
                }
            }
        }

        Ok(Grouping {
            clusters: finished,
            splits,
            unplaced,
        })
    }

    /// The parts, and how many rows k-means left unplaced, which the strict mode refuses before
    /// anything is balanced.
    fn split_cluster(
        &self,
        cluster: &Cluster,
        draws: &mut Draws,
    ) -> Result<(Vec<Cluster>, u32), Refusal> {
        let k = self.branching_factor;
        let members = cluster.data();

        let found = run_kmeans(members, k, self.max_iterations, self.spherical, draws);
        self.mode.check_placed(found.unplaced)?;

        let mut parts: Vec<Vec<Member>> = vec![vec![]; k];
        for (place, &label) in found.assignments.iter().enumerate() {
            parts[label].push(members[place].clone());
        }

        if self.balance_weight > 0.0 {
            parts = self.balance_clusters(parts, &found.centroids);
        }

        let parts = parts
            .into_iter()
            .filter(|part| !part.is_empty())
            .map(Cluster::from_data)
            .collect();
        Ok((parts, found.unplaced))
    }

    pub fn balance_clusters(
        &self,
        mut clusters: Vec<Vec<Member>>,
        centroids: &[Vec<f32>],
    ) -> Vec<Vec<Member>> {
        let rows: usize = clusters.iter().map(Vec::len).sum();
        let k = clusters.len();
        let share = rows / k;
        // The cast cuts to a whole number and takes infinity to the largest.
        let allowance = (share as f32 * (1.0 + self.balance_weight)) as usize;

        for _round in 0..10 {
            let sizes: Vec<usize> = clusters.iter().map(Vec::len).collect();

            let mut giver = None;
            let mut receiver = None;

            for (cluster, &size) in sizes.iter().enumerate() {
                if size > allowance {
                    giver = Some(cluster);
                    break;
                }
            }

            for (cluster, &size) in sizes.iter().enumerate() {
                if size < share {
                    receiver = Some(cluster);
                    break;
                }
            }

            let (Some(giver), Some(receiver)) = (giver, receiver) else {
                break;
            };

            let closest =
                self.find_closest_vector_to_centroid(&clusters[giver], &centroids[receiver]);
            if let Some(place) = closest {
                let moved = clusters[giver].remove(place);
                clusters[receiver].push(moved);
            } else {
                break;
            }
        }

        clusters
    }

    fn find_closest_vector_to_centroid(
        &self,
        vectors: &[Member],
        centroid: &[f32],
    ) -> Option<usize> {
        if vectors.is_empty() {
            return None;
        }

        let mut closest = 0;
        let mut least = l2_distance_sqr(&vectors[0].vector, centroid);

        for (place, member) in vectors.iter().enumerate().skip(1) {
            let distance = l2_distance_sqr(&member.vector, centroid);
            if distance < least {
                least = distance;
                closest = place;
            }
        }

        Some(closest)
    }
}

fn compute_centroid(data: &[Member]) -> Vec<f32> {
    if data.is_empty() {
        return vec![];
    }

    let dim = data[0].vector.len();
    let mut mean = vec![0.0; dim];

    for member in data {
        for (d, &value) in member.vector.iter().enumerate() {
            mean[d] += value;
        }
    }

    let count = data.len() as f32;
    for sum in &mut mean {
        *sum /= count;
    }

    mean
}

// ---- not in the source

/// A vector that knows which row of the call it is, since the result lists rows.
#[derive(Debug, Clone)]
pub struct Member {
    pub row: usize,
    pub vector: Vec<f32>,
}

impl AsRef<[f32]> for Member {
    fn as_ref(&self) -> &[f32] {
        &self.vector
    }
}

/// The clusters in the order finished, how many splits led to them, and how many rows these left
/// unplaced: a row counts once for each split that does.
#[derive(Debug, Clone, Default)]
pub struct Grouping {
    pub clusters: Vec<Cluster>,
    pub splits: usize,
    pub unplaced: u32,
}
